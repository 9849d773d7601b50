//! The build script: which archive it takes, and what it says where it cannot go on.

use std::fs;
use std::path::{Path, PathBuf};
use std::process::{Command, Output};
use std::sync::OnceLock;

fn script() -> &'static Path {
    static SCRIPT: OnceLock<PathBuf> = OnceLock::new();
    SCRIPT.get_or_init(|| {
        let script = Path::new(env!("CARGO_TARGET_TMPDIR")).join("build_script");
        let source = concat!(env!("CARGO_MANIFEST_DIR"), "/build.rs");
        let rustc = std::env::var_os("RUSTC").unwrap_or("rustc".into());
        let compiled = Command::new(rustc)
            .args(["--edition", "2021", source, "-o"])
            .arg(&script)
            .status()
            .expect("rustc");
        assert!(compiled.success());
        script
    })
}

/// What it does for a target, with only these other variables.
fn run(target: &str, variables: &[(&str, &str)]) -> Output {
    let mut command = Command::new(script());
    command.env_clear().envs(variables.iter().copied());
    command.env("CARGO_MANIFEST_DIR", env!("CARGO_MANIFEST_DIR"));
    command.env("OUT_DIR", env!("CARGO_TARGET_TMPDIR"));
    for (name, value) in ["ARCH", "OS", "ENDIAN", "POINTER_WIDTH"].iter().zip(target.split(' ')) {
        command.env(format!("CARGO_CFG_TARGET_{name}"), value);
    }
    command.output().unwrap()
}

fn said(output: &Output) -> String {
    assert_eq!(output.status.code(), Some(1));
    String::from_utf8_lossy(&output.stderr).into_owned()
}

#[test]
fn targets() {
    let lib = Path::new(env!("CARGO_TARGET_TMPDIR")).join("named.a");
    fs::write(&lib, "an archive").unwrap();
    let variables = [("HILOFANUR_LIB", lib.to_str().unwrap())];
    for target in ["x86_64 linux little 64", "aarch64 linux little 64"] {
        let output = run(target, &variables);
        assert!(output.status.success());
        let text = String::from_utf8_lossy(&output.stdout).into_owned();
        assert!(text.contains("cargo:rustc-link-lib=static=hilofanur\n"), "{text}");
        let copy = Path::new(env!("CARGO_TARGET_TMPDIR")).join("libhilofanur.a");
        assert_eq!(fs::read(copy).unwrap(), b"an archive");
    }
    for target in [
        "riscv64 linux little 64",
        "aarch64 macos little 64",
        "aarch64 linux big 64",
        "x86_64 linux little 32",
    ] {
        let expected =
            format!("hilofanur: libhilofanur.a is for 64-bit Linux on x86-64 and AArch64, not for {target}\n");
        assert_eq!(said(&run(target, &variables)), expected);
    }
}

#[test]
fn without_a_library() {
    let target = "x86_64 linux little 64";
    let expected = "hilofanur: rt not found: put the kit on PATH, or set HILOFANUR_LIB\n";
    assert_eq!(said(&run(target, &[("PATH", "/nowhere")])), expected);
    let text = said(&run(target, &[("HILOFANUR_LIB", "/nowhere/lib.a")]));
    assert!(text.starts_with("hilofanur: /nowhere/lib.a: "), "{text}");
}
