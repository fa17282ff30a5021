//! The program, and inputs that are given to it and to the second
//! implementation.

use crate::support;
use std::collections::BTreeMap;
use std::fs::{self, File};
use std::io::Write;
use std::path::{Path, PathBuf};
use std::process::{Child, Command, Stdio};
use std::thread;
use std::time::Duration;

/// The program. Without it the tests fail.
fn program() -> PathBuf {
    let made = || Path::new(env!("CARGO_MANIFEST_DIR")).join("../crates/sheet/out/sheet");
    let program = std::env::var_os("ZOMBIRELS_SHEET").map_or_else(made, PathBuf::from);
    assert!(
        program.is_file(),
        "{} is missing: run `rt run` in crates/sheet first",
        program.display()
    );
    program
}

/// How the input comes to the program.
#[derive(Clone, Copy)]
pub enum Feed {
    File,
    /// A pipe, so many bytes at a time, with a pause behind each.
    Pipe(usize),
}

/// The inputs of one test and what was printed for them.
pub struct Corpus {
    test: &'static str,
    inputs: usize,
    seen: BTreeMap<Vec<u8>, usize>,
}

impl Corpus {
    pub fn new(test: &'static str) -> Corpus {
        Corpus {
            test,
            inputs: 0,
            seen: BTreeMap::new(),
        }
    }

    /// The file of the current input, which a failed test leaves.
    fn file(&self) -> PathBuf {
        Path::new(env!("CARGO_TARGET_TMPDIR")).join(format!("sheet {}", self.test))
    }

    /// The program's output for the input is the second implementation's.
    pub fn check(&mut self, input: impl AsRef<[u8]>) -> Vec<u8> {
        self.check_by(Feed::File, input.as_ref())
    }

    pub fn check_by(&mut self, feed: Feed, input: &[u8]) -> Vec<u8> {
        fs::write(self.file(), input).expect("the input is written");
        let output = match feed {
            Feed::File => from_file(&self.file()),
            Feed::Pipe(chunk) => from_pipe(input, chunk),
        };
        let expected = reference::sheet::run(input);
        if output != expected {
            self.fail(&output, &expected);
        }
        self.inputs += 1;
        for line in output.split_inclusive(|&byte| byte == b'\n') {
            *self.seen.entry(kind(line).to_vec()).or_default() += 1;
        }
        output
    }

    /// Tells the first line that differs.
    fn fail(&self, output: &[u8], expected: &[u8]) -> ! {
        let lines = |text: &[u8]| -> Vec<String> {
            let lines = text.split_inclusive(|&byte| byte == b'\n');
            lines.map(support::show).collect()
        };
        let (output, expected) = (lines(output), lines(expected));
        let differs = |at: &usize| output.get(*at) != expected.get(*at);
        let at = (0..).find(differs).unwrap_or_default();
        panic!(
            "{}: line {} of the output is {:?}, not {:?}; the input is {}",
            self.test,
            at + 1,
            output.get(at),
            expected.get(at),
            self.file().display()
        );
    }

    /// Checks that there were enough inputs and that each of these was printed.
    pub fn require(self, least: usize, printed: &[&str]) {
        let Corpus { test, inputs, seen } = &self;
        let show = |(kind, times): (&Vec<u8>, &usize)| {
            format!("{} x {times}", String::from_utf8_lossy(kind).trim())
        };
        let seen_text: Vec<String> = seen.iter().map(show).collect();
        println!("{test}: {inputs} inputs; lines: {}", seen_text.join(", "));
        assert!(*inputs >= least, "{test}: too few inputs");
        for line in printed {
            let printed = seen.contains_key(line.as_bytes());
            assert!(printed, "{test}: {line:?} was never printed");
        }
        fs::remove_file(self.file()).expect("the input is removed");
    }
}

/// The number that a line is, else that it is a row; with a `;` that its type
/// has parameters.
fn kind(line: &[u8]) -> &[u8] {
    let last = line.rsplit(|&byte| byte == b' ').next();
    match last {
        _ if line.len() <= 4 => &line[..3],
        Some(media_type) if media_type.contains(&b';') => b"row;",
        _ => b"row",
    }
}

fn start(input: Stdio) -> Child {
    Command::new(program())
        .stdin(input)
        .stdout(Stdio::piped())
        .spawn()
        .expect("the program starts")
}

fn end(child: Child) -> Vec<u8> {
    let output = child.wait_with_output().expect("the program ends");
    assert!(output.status.success(), "{}", output.status);
    output.stdout
}

fn from_file(path: &Path) -> Vec<u8> {
    end(start(Stdio::from(File::open(path).expect("the input"))))
}

fn from_pipe(input: &[u8], chunk: usize) -> Vec<u8> {
    let mut child = start(Stdio::piped());
    let mut pipe = child.stdin.take().expect("a pipe");
    let input = input.to_vec();
    let feeder = thread::spawn(move || {
        for bytes in input.chunks(chunk) {
            // a program that ended early is told by its output
            if pipe.write_all(bytes).is_err() {
                break;
            }
            thread::sleep(Duration::from_micros(10));
        }
    });
    let output = end(child);
    feeder.join().expect("the input is fed");
    output
}
