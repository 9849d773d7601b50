//! Takes emuko's AArch64 translator out of its source texts and writes it to OUT_DIR/emuko.rs.
//!
//! The texts come from the folder that EMUKO_SRC names, else from `shared` beside the repository.
//! Every item taken and every substitution is counted against the number expected of the pinned
//! commit (emuko 2b13430995); any other number stops the build.

use std::path::{Path, PathBuf};

const AARCH64: &str = "#[cfg(target_arch = \"aarch64\")]\n";

fn stop(message: String) -> ! {
    eprintln!("oracle: {message}");
    eprintln!("oracle: the text is not that of emuko 2b13430995; nothing was built");
    std::process::exit(1)
}

/// `found` must be the expected number.
fn expect(found: usize, expected: usize, what: &str) {
    if found != expected {
        stop(format!("{what}: {found} found, {expected} expected"));
    }
}

fn read(folder: &Path, name: &str, lines: usize) -> String {
    let path = folder.join(name);
    println!("cargo:rerun-if-changed={}", path.display());
    match std::fs::read_to_string(&path) {
        Ok(text) => {
            expect(text.lines().count(), lines, &format!("lines of {name}"));
            text
        }
        Err(error) => {
            eprintln!("oracle: {}: {error}", path.display());
            eprintln!("oracle: EMUKO_SRC has to name the folder with emuko's source texts");
            std::process::exit(1)
        }
    }
}

/// The item that begins with `head` (which occurs once) and ends with the first closing brace at
/// `head`'s own indentation.
fn item(text: &str, head: &str, lines: usize) -> String {
    expect(text.matches(head).count(), 1, head);
    let from = &text[text.find(head).unwrap()..];
    let indent = head.len() - head.trim_start().len();
    let close = format!("\n{}}}\n", " ".repeat(indent));
    let Some(end) = from.find(&close) else { stop(format!("{head}: no end")) };
    let taken = &from[..end + close.len()];
    expect(taken.lines().count(), lines, &format!("lines of {head}"));
    taken.to_string()
}

/// `text` with each of the expected occurrences of `old` replaced by `new`.
fn replace(text: &str, old: &str, new: &str, times: usize) -> String {
    expect(text.matches(old).count(), times, old);
    text.replace(old, new)
}

/// `text` without the statements whose first line is `head`, each to the brace that closes it.
fn without(text: &str, head: &str, times: usize, lines: usize) -> String {
    let (mut kept, mut found, mut dropped) = (String::new(), 0, 0);
    let mut close: Option<String> = None;
    for line in text.lines() {
        match &close {
            Some(last) => {
                dropped += 1;
                if line == last {
                    close = None;
                }
            }
            None if line.trim_start() == head => {
                found += 1;
                dropped += 1;
                let indent = line.len() - head.len();
                close = Some(format!("{}}}", " ".repeat(indent)));
            }
            None => {
                kept.push_str(line);
                kept.push('\n');
            }
        }
    }
    expect(found, times, head);
    expect(dropped, lines, &format!("lines under {head}"));
    kept
}

/// The text from `first` (which occurs once) to the next `last`, both left out.
fn between<'a>(text: &'a str, first: &str, last: &str, lines: usize) -> &'a str {
    expect(text.matches(first).count(), 1, first);
    let from = &text[text.find(first).unwrap() + first.len()..];
    let Some(end) = from.find(last) else { stop(format!("{first}: no {last} behind it")) };
    let taken = from[..end].trim();
    expect(taken.lines().count(), lines, &format!("lines behind {first}"));
    taken
}

/// The text with everything from `first` to `last`, each of which occurs once, replaced by `new`.
fn replace_span(text: &str, first: &str, last: &str, new: &str, lines: usize) -> String {
    expect(text.matches(first).count(), 1, first);
    expect(text.matches(last).count(), 1, last);
    let (start, end) = (text.find(first).unwrap(), text.find(last).unwrap() + last.len());
    expect(text[start..end].lines().count(), lines, &format!("lines from {first}"));
    format!("{}{new}{}", &text[..start], &text[end..])
}

/// An item of the AArch64 build, without the attribute that says so.
fn aarch64(text: &str, head: &str, lines: usize) -> String {
    let taken = item(text, &format!("{AARCH64}{head}"), lines + 1);
    replace(&taken, AARCH64, "", 1)
}

/// A method of jit_arm64.rs, without the attribute; `reg_off` reads the slot offset of `self`.
fn method(text: &str, name: &str, lines: usize, reg_off: usize) -> String {
    let head = format!("    {AARCH64}    fn {name}(");
    let taken = item(text, &head, lines + 1);
    let taken = replace(&taken, &format!("    {AARCH64}"), "", 1);
    replace(&taken, "Self::reg_off(", "self.reg_off(", reg_off)
}

/// A helper's address is a number from the caller.
fn helper_address(text: &str, name: &str, index: usize) -> String {
    let old = format!("Self::{name} as *const () as usize as u64");
    replace(text, &old, &format!("self.helpers[{index}]"), 1)
}

fn methods(jit: &str) -> (String, String) {
    let instr16 = method(jit, "emit_native_instr16", 273, 30);
    let instr32 = method(jit, "emit_native_instr", 374, 14);
    let helper16 = method(jit, "emit_native_term_helper16", 46, 0);
    let helper16 = helper_address(&helper16, "native_exec16_term_helper", 2);
    let helper32 = method(jit, "emit_native_term_helper32", 114, 2);
    let helper32 = helper_address(&helper32, "native_exec_mem_term_helper", 0);
    let helper32 = helper_address(&helper32, "native_exec32_term_helper", 1);

    let block = method(jit, "compile_native_block", 184, 0);
    let block = replace_span(
        &block,
        "let Some(cache) = self.native_jit.cache.as_mut() else {",
        "Ok(Some(block))",
        "Ok(Some(NativeBlock { code, instrs: emitted, helper: helper_terminator }))",
        48,
    );
    let block = without(&block, "if !self.native_jit.enabled {", 1, 3);
    let block = without(&block, "if self.native_jit_trace {", 7, 24);
    let block = without(&block, "if emitted == 0 && self.native_jit_trace {", 2, 12);
    let block =
        replace(&block, "        let mut instr_log: Vec<(u64, u32, u8)> = Vec::new();\n", "", 1);
    let block = replace(&block, "        let satp = self.satp_cached;\n", "", 1);
    let block =
        replace(&block, "            self.native_jit.mark_failed(satp, start_pc);\n", "", 1);

    let all = [instr16.as_str(), &instr32, &helper16, &helper32, &block].join("\n");
    (all, instr16)
}

/// The expressions of the compressed immediates, each as a function of the halfword.
fn compressed(instr16: &str) -> String {
    let ci = between(instr16, "let imm_ci = || {\n", "};", 2);
    let addi4spn = between(instr16, "// C.ADDI4SPN\n", "if imm == 0 {", 8);
    let addi16sp = between(instr16, "// C.ADDI16SP\n", "if imm == 0 {", 7);
    let cj = between(instr16, "// C.J\n", "em.mov_imm64(", 12);
    let cb = between(instr16, "// C.BEQZ / C.BNEZ\n", "em.emit(", 9);
    let shift = "let shamt = (((instr >> 12) & 0x1) << 5) | ((instr >> 2) & 0x1f);";
    expect(instr16.matches("let shamt = ").count(), 3, "let shamt = ");
    expect(instr16.matches(shift).count(), 3, shift);
    let function = |name: &str, body: &str, answer: &str| {
        format!("    fn {name}(instr: u16) -> u64 {{\n        {body}\n        {answer}\n    }}\n")
    };
    [
        function("c_addi4spn", addi4spn, "imm as u64"),
        function("c_imm_ci", ci, ""),
        function("c_addi16sp", addi16sp, "imm"),
        function("c_j", cj, "imm"),
        function("c_branch", cb, "imm"),
        function("c_shamt", shift, "shamt as u64"),
    ]
    .concat()
}

fn main() {
    println!("cargo:rerun-if-env-changed=EMUKO_SRC");
    println!("cargo:rerun-if-changed=build.rs");
    let here = PathBuf::from(std::env::var("CARGO_MANIFEST_DIR").unwrap());
    let folder = match std::env::var_os("EMUKO_SRC") {
        Some(folder) => PathBuf::from(folder),
        None => here.join("../../../shared"),
    };
    let hart = read(&folder, "src--src--hart.rs.txt", 778);
    let jit = read(&folder, "src--src--hart--jit_arm64.rs.txt", 1439);
    let decode = read(&folder, "src--src--hart--decode.rs.txt", 66);
    let isa = read(&folder, "src--src--isa.rs.txt", 99);
    let bus = read(&folder, "src--src--bus.rs.txt", 374);
    let trap = read(&folder, "src--src--trap.rs.txt", 18);

    let access =
        item(&bus, "#[derive(Debug, Clone, Copy, PartialEq, Eq)]\npub enum AccessType {", 7);
    let trap = replace(&trap, "crate::bus::AccessType", "AccessType", 1);
    let decoded = item(&hart, "#[derive(Clone, Copy, Default)]\nstruct Decoded32 {", 12);
    let flow = aarch64(&hart, "#[derive(Clone, Copy, PartialEq, Eq)]\nenum EmitFlow {", 5);
    let emitter = aarch64(&hart, "struct A64Emitter {", 3);
    let writers = aarch64(&hart, "impl A64Emitter {", 149);
    let mem_ops = aarch64(&hart, "impl Hart {", 13);
    expect(mem_ops.matches("    const MEM_OP_").count(), 11, "MEM_OP_ constants");
    let alloc = item(&hart, "    fn alloc(&mut self, code: &[u8]) -> Option<usize> {", 17);
    let macos = "        #[cfg(target_os = \"macos\")]\n";
    let alloc = replace(&alloc, &format!("{macos}        self.set_writable(true);\n"), "", 1);
    let alloc = replace(&alloc, &format!("{macos}        self.set_writable(false);\n"), "", 1);
    let alloc = replace(&alloc, "        self.flush_icache(aligned, code.len());\n", "", 1);
    let (methods, instr16) = methods(&jit);
    let compressed = compressed(&instr16);

    let text = format!(
        "mod isa {{\n{isa}}}\nuse isa::*;\n{access}{trap}{decoded}{flow}{emitter}{writers}{mem_ops}\
         mod decode {{\n{decode}}}\nimpl Hart {{\n{methods}{compressed}}}\n\
         impl NativeCodeCache {{\n{alloc}}}\n"
    );
    expect(text.matches("target_arch").count(), 0, "target_arch left");
    expect(text.matches("target_os").count(), 0, "target_os left");
    let out = PathBuf::from(std::env::var("OUT_DIR").unwrap()).join("emuko.rs");
    std::fs::write(out, text).unwrap();
}
