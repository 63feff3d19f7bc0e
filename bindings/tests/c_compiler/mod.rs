//! The C compiler `cc`: programs in C, compiled against the header and linked with the archive.
#![allow(dead_code)] // no test program uses all of it

use std::io::Write;
use std::path::{Path, PathBuf};
use std::process::{Command, Output, Stdio};

/// The compiler with all warnings as errors. Tests read its messages, so these are to be English.
pub fn cc(standard: &str) -> Command {
    let mut cc = Command::new("cc");
    cc.current_dir(env!("CARGO_MANIFEST_DIR"));
    cc.env("LC_ALL", "C");
    cc.args([standard, "-pedantic", "-Wall", "-Wextra", "-Werror"]);
    cc.arg("-I../include");
    cc
}

/// Compiles a text of C, as the arguments say.
pub fn compile(text: &str, arguments: &[&str]) -> Output {
    let mut cc = cc("-std=c11");
    cc.args(["-O2", "-x", "c", "-", "-x", "none"]);
    cc.args(arguments);
    cc.stdin(Stdio::piped());
    cc.stdout(Stdio::piped()).stderr(Stdio::piped());
    let mut compiling = cc.spawn().expect("cc starts");
    let mut stdin = compiling.stdin.take().expect("a pipe");
    let given = stdin.write_all(text.as_bytes());
    given.expect("cc reads the program");
    drop(stdin);
    compiling.wait_with_output().expect("cc ends")
}

/// Compiles a text of C and links it with the calls that the archive has.
pub fn link(text: &str, program: &Path) -> Output {
    let program = program.to_str().expect("a path that is text");
    compile(text, &[env!("HOGUNLAS_ARCHIVE"), "-o", program])
}

pub fn assert_compiled(compiled: &Output) {
    let said = String::from_utf8_lossy(&compiled.stderr);
    assert!(compiled.status.success(), "cc: {said}");
}

/// Where a test puts what it compiles. Test programs share the folder, so each name is used once.
pub fn built(name: &str) -> PathBuf {
    PathBuf::from(env!("CARGO_TARGET_TMPDIR")).join(name)
}

/// What a program prints. It has to end with 0.
pub fn printed(program: &Path) -> String {
    let ran = Command::new(program).output().expect("the program starts");
    let text = String::from_utf8_lossy(&ran.stdout).into_owned();
    assert!(ran.status.success(), "{}: {text}", ran.status);
    text
}
