//! C and C++ compiled without a warning, and programs in C that are linked with
//! the archive.

use std::path::{Path, PathBuf};
use std::process::Command;

use crate::{repository, run};

const STRICT: [&str; 4] = ["-Wall", "-Wextra", "-Wpedantic", "-Werror"];

/// The compiler that the environment variable names, or else this one.
pub fn compiler(variable: &str, name: &str) -> Command {
    let mut command = Command::new(std::env::var_os(variable).unwrap_or(name.into()));
    command
        .args(STRICT)
        .arg("-I")
        .arg(repository().join("host"));
    command
}

/// Fails where the compiler fails with this source, or says anything.
pub fn assert_compiles(command: &mut Command, source: &[u8]) {
    let output = run(command, source);
    let said = String::from_utf8_lossy(&output.stderr);
    assert!(output.status.success() && said.is_empty(), "{said}");
}

/// A program of this name whose source is in this folder of the repository, put
/// into another folder and linked with the archive that the caller is linked with.
pub fn compiled(folder: &str, name: &str, into: &str) -> PathBuf {
    let made_here = || repository().join("target/host/libryebadger.a").into();
    let archive = std::env::var_os("RYEBADGER_ARCHIVE").unwrap_or_else(made_here);
    let program = Path::new(into).join(name);
    let source = repository().join(format!("{folder}/{name}.c"));
    let mut cc = compiler("CC", "cc");
    cc.args(["-std=c11", "-O2"]).arg(source).arg(archive);
    assert_compiles(cc.arg("-o").arg(&program), &[]);
    program
}
