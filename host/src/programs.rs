//! The programs that `./build` built in target/bin, and what they print.

use std::fs;
use std::io::{self, Write};
use std::path::{Path, PathBuf};
use std::process::{ChildStdin, Command, Stdio};
use std::thread;

/// The repository's root.
pub fn root() -> PathBuf {
    Path::new(env!("CARGO_MANIFEST_DIR"))
        .parent()
        .expect("host/ lies in the repository")
        .to_path_buf()
}

/// What a program prints for this input.
pub fn printed(name: &str, input: &[u8]) -> Vec<u8> {
    printed_while(name, |pipe, _| pipe.write_all(input))
}

/// What a program prints for the input that is sent into the pipe, while its output is read. The sender
/// is given the process's number too.
pub fn printed_while(
    name: &str,
    send: impl FnOnce(&mut ChildStdin, u32) -> io::Result<()> + Send,
) -> Vec<u8> {
    let program = root().join("target/bin").join(name);
    assert!(
        program.is_file(),
        "no target/bin/{name}: run `./build {name}` in the repository's root"
    );
    let mut child = Command::new(program)
        .stdin(Stdio::piped())
        .stdout(Stdio::piped())
        .stderr(Stdio::piped())
        .spawn()
        .expect("the program starts");
    let mut pipe = child.stdin.take().expect("a pipe");
    let process = child.id();
    let output = thread::scope(|scope| {
        // the program may stop before the input's end: then it cannot be sent to its end
        scope.spawn(move || drop(send(&mut pipe, process)));
        child.wait_with_output().expect("the program ends")
    });
    let told = String::from_utf8_lossy(&output.stderr);
    assert!(output.status.success(), "{}: {told}", output.status);
    assert!(told.is_empty(), "{told}");
    output.stdout
}

/// Every input of a folder of the repository, by the end of its name, with the text that stands beside
/// it under another end.
pub fn pairs(folder: &str, input: &str, text: &str) -> Vec<(PathBuf, Vec<u8>, Vec<u8>)> {
    let read = |path: &Path| fs::read(path).unwrap_or_else(|error| panic!("{path:?}: {error}"));
    let entries =
        fs::read_dir(root().join(folder)).unwrap_or_else(|error| panic!("{folder}: {error}"));
    let mut pairs = Vec::new();
    for entry in entries {
        let path = entry.expect("a file").path();
        if path.extension().is_some_and(|end| end == input) {
            let pair = (read(&path), read(&path.with_extension(text)));
            pairs.push((path, pair.0, pair.1));
        }
    }
    pairs
}
