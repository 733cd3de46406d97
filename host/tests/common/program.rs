//! The programs that `rt ci` and `rt run` make.

use std::io::{ErrorKind, Write};
use std::path::Path;
use std::process::{Command, Stdio};
use std::thread;

/// Runs a program on an input that is written in pieces of that size. It must
/// succeed, and say nothing on standard error.
pub fn program(name: &str, arguments: &[&str], input: &[u8], piece: usize) -> Vec<u8> {
    let path = Path::new(env!("CARGO_MANIFEST_DIR")).join(format!("../crates/{name}/out/{name}"));
    let mut child = Command::new(&path)
        .args(arguments)
        .stdin(Stdio::piped())
        .stdout(Stdio::piped())
        .stderr(Stdio::piped())
        .spawn()
        .unwrap_or_else(|error| {
            let path = path.display();
            panic!("{path}: {error}; `rt run` in crates/{name} makes it")
        });
    let mut stdin = child.stdin.take().expect("piped");
    let output = thread::scope(|scope| {
        scope.spawn(move || {
            for piece in input.chunks(piece) {
                match stdin.write_all(piece) {
                    // It reads no more than it needs.
                    Err(error) if error.kind() == ErrorKind::BrokenPipe => break,
                    written => written.expect("a pipe takes bytes"),
                }
            }
        });
        child.wait_with_output().expect("it ends")
    });
    assert!(output.status.success(), "{}", output.status);
    assert_eq!(output.stderr, b"");
    output.stdout
}
