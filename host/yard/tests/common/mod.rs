//! Calls of the command, and lists in files.
#![allow(dead_code)]
use std::io::Write;
use std::path::PathBuf;
use std::process::{Command, Stdio};
use std::sync::atomic::{AtomicUsize, Ordering};

/// The example list of a whole yard.
pub const YARD_LIST: &str = concat!(env!("CARGO_MANIFEST_DIR"), "/../../examples/yard.list");

/// What a call of the command said.
pub struct Said {
    pub status: i32,
    pub out: String,
    pub err: String,
}

fn command(words: &[&str]) -> Command {
    let mut command = Command::new(env!("CARGO_BIN_EXE_yard"));
    command
        .args(words)
        .stdin(Stdio::piped())
        .stdout(Stdio::piped())
        .stderr(Stdio::piped());
    command
}

/// Calls the command with nothing on standard input.
pub fn yard(words: &[&str]) -> Said {
    yard_with_input(words, b"")
}

pub fn yard_with_input(words: &[&str], input: &[u8]) -> Said {
    let mut child = command(words).spawn().expect("the command runs");
    let mut stdin = child.stdin.take().expect("it is piped");
    let input = input.to_vec();
    let writer = std::thread::spawn(move || stdin.write_all(&input));
    let output = child.wait_with_output().expect("the command ends");
    let _ = writer.join();
    let text = |bytes| String::from_utf8(bytes).expect("it writes UTF-8");
    Said {
        status: output.status.code().expect("it ends by itself"),
        out: text(output.stdout),
        err: text(output.stderr),
    }
}

/// Calls the command with a standard output that nobody reads.
pub fn yard_into_closed_pipe(words: &[&str], input: &[u8]) -> Said {
    let mut child = command(words).spawn().expect("the command runs");
    drop(child.stdout.take());
    let mut stdin = child.stdin.take().expect("it is piped");
    let input = input.to_vec();
    let writer = std::thread::spawn(move || stdin.write_all(&input));
    let output = child.wait_with_output().expect("the command ends");
    let _ = writer.join();
    Said {
        status: output.status.code().expect("it ends by itself"),
        out: String::new(),
        err: String::from_utf8(output.stderr).expect("it writes UTF-8"),
    }
}

/// A list in a file that is removed at the end.
pub struct ListFile {
    path: PathBuf,
}

impl ListFile {
    pub fn name(&self) -> &str {
        self.path.to_str().expect("the name is UTF-8")
    }
}

impl Drop for ListFile {
    fn drop(&mut self) {
        let _ = std::fs::remove_file(&self.path);
    }
}

pub fn list_of(text: &str) -> ListFile {
    list_of_bytes(text.as_bytes())
}

pub fn list_of_bytes(bytes: &[u8]) -> ListFile {
    static NEXT: AtomicUsize = AtomicUsize::new(0);
    let number = NEXT.fetch_add(1, Ordering::Relaxed);
    let name = format!("yard-{}-{number}.list", std::process::id());
    let path = std::env::temp_dir().join(name);
    std::fs::write(&path, bytes).expect("a file can be written");
    ListFile { path }
}
