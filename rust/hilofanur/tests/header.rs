//! include/hilofanur.h from C: compiled by gcc without a warning, linked with the library, run.

use draw::marked::PRINTED;
use hilofanur::INDEX_BYTES;
use std::path::Path;
use std::process::Command;

/// Row 5 listed, and refusals 12 to 14.
const LISTED: &str = "\
listed 178 0
00000000 f9402009 ldr x9, [x0, #64]
00000004 f940200a ldr x10, [x0, #64]
00000008 d2820040 movz x0, #4098, lsl #0
0000000c d2800021 movz x1, #1, lsl #0
00000010 d65f03c0 ret x30
refused 12
refused 13 1
refused 14
";

/// Refusal, start, length and count of the index's answers.
const INDEXED: &str = "\
index lookup 16 0 0 0
index place 0 0
index place 0 4
index place 15 0
index lookup 0 0 4 64
index lookup 0 4 8 64
index lookup 16 0 0 0
store 4 1 0
index place 0 0
index lookup 16 0 0 0
index lookup 0 0 12 64
index lookup 16 0 0 0
";

/// Each end kind, the block's bytes and count; the run's count and next PC, which is before a helper instruction.
const ENDED: &str = "\
end kind 1, 12 bytes, count 2, ran 2 to 1004
end kind 1, 68 bytes, count 2, ran 1 to 1002
end kind 1, 12 bytes, count 2, ran 2 to 1006
";

/// At the call: steps, X16, the instruction, its PC, X30 and SP; after it: steps, X0, X1, X30 and SP. Then A64 run
/// from off the end, and its refusals.
const CALLED: &str = "\
called 1 12 30000 4000 1002 4030 100
returned 1 5 1004 2 7 110
off the end 1 0
refused 10 11
";

/// Each end of a run, as the header names it and by number.
const ENDS: &str = "ends 1:1 1:2 1:3 1:4 1:5 1:6\n";

/// The most bytes by the limit, and those of one CPOPW at the top of the PCs.
const BLOCK_BYTES: &str = "\
block bytes 24 184 1304 10104 10264 10264 10264 344 688
cpopw 132 of 184
";

#[test]
fn from_c() {
    let here = Path::new(env!("CARGO_MANIFEST_DIR"));
    let program = Path::new(env!("CARGO_TARGET_TMPDIR")).join("header");
    let compiled = Command::new("gcc")
        .args(["-std=c11", "-Wall", "-Wextra", "-Wpedantic", "-Werror", "-O2", "-I"])
        .args([here.join("../../include"), here.join("tests/header.c")])
        .args([env!("HILOFANUR_LINKED"), "-o"])
        .arg(&program)
        .output()
        .expect("gcc");
    assert!(compiled.status.success(), "{}", String::from_utf8_lossy(&compiled.stderr));
    let ran = Command::new(&program).output().unwrap();
    let others = "refused 1\nrefused 6\nplaced 8 28\nran 1 1002 ff\nend 1 5 1002\n";
    let bytes = format!("index bytes {INDEX_BYTES}\n");
    let version = concat!("version ", env!("CARGO_PKG_VERSION"), "\n");
    let expected =
        [PRINTED, others, LISTED, INDEXED, &bytes, ENDED, CALLED, ENDS, BLOCK_BYTES, version]
            .concat();
    assert_eq!(String::from_utf8_lossy(&ran.stdout), expected);
    assert!(ran.status.success());
}
