//! Programs run as child processes: bytes in, text out.

use std::io::{ErrorKind, Read, Write};
use std::path::PathBuf;
use std::process::{ChildStdin, Command, Stdio};
use std::thread;
use std::time::Duration;

/// A program that reads standard input and prints.
pub struct Program {
    path: PathBuf,
}

/// How the input is handed over.
#[derive(Clone, Copy)]
pub enum Handing {
    AtOnce,
    /// In pieces of so many bytes with a pause after each, as a slow writer would: one read
    /// then gives less than all.
    InPieces(usize),
}

impl Program {
    /// The program at a path, or a sentence that says that there is none.
    pub fn at(path: PathBuf) -> Result<Program, String> {
        match path.is_file() {
            true => Ok(Program { path }),
            false => Err(format!(
                "there is no program {}: build it with rt, or name its path",
                path.display()
            )),
        }
    }

    /// What the program prints for an input; a word about its end if that is not success.
    ///
    /// # Panics
    ///
    /// Where the program cannot be started or its pipes fail.
    pub fn run(&self, input: &[u8], handing: Handing) -> Vec<u8> {
        let child = Command::new(&self.path)
            .stdin(Stdio::piped())
            .stdout(Stdio::piped())
            .spawn();
        let mut child = child.unwrap_or_else(|error| panic!("{}: {error}", self.path.display()));
        let stdin = child.stdin.take().expect("a pipe was asked for");
        let mut stdout = child.stdout.take().expect("a pipe was asked for");

        // Written beside the reading: neither side waits for the other's full pipe.
        let mut text = Vec::new();
        thread::scope(|scope| {
            scope.spawn(|| hand_over(stdin, input, handing));
            stdout.read_to_end(&mut text).expect("standard output");
        });
        let status = child.wait().expect("the program's end");
        if !status.success() {
            text.extend(format!("[ended with {status}]\n").bytes());
        }
        text
    }
}

fn hand_over(mut stdin: ChildStdin, input: &[u8], handing: Handing) {
    let piece = match handing {
        Handing::AtOnce => input.len().max(1),
        Handing::InPieces(length) => length,
    };
    for piece in input.chunks(piece) {
        match stdin.write_all(piece) {
            Ok(()) => {}
            // The program has read as much as it wants.
            Err(error) if error.kind() == ErrorKind::BrokenPipe => return,
            Err(error) => panic!("standard input: {error}"),
        }
        if let Handing::InPieces(_) = handing {
            thread::sleep(Duration::from_micros(50));
        }
    }
}
