// Runs a program on standard streams of every kind: pipes, files, streams that are closed, full or broken, and reads and writes that go by a plan (faults.c).
use std::fs::{File, OpenOptions};
use std::io::{Read, Write};
use std::os::unix::process::ExitStatusExt;
use std::process::{Child, Command, ExitStatus, Stdio};
use std::thread::{self, JoinHandle};
use std::time::{Duration, Instant};

// A program that takes longer than this hangs.
const LIMIT: Duration = Duration::from_secs(120);

// What a run left. A program that had to be stopped has no status.
pub struct Ran {
    pub printed: Vec<u8>,
    complaint: Vec<u8>,
    status: Option<ExitStatus>,
}

impl Ran {
    // Whether the program ended by itself, and neither it nor its loader complained.
    pub fn ended(&self) -> bool {
        self.complaint.is_empty() && self.status.is_some_and(|s| s.success())
    }

    // The same of a program that the system may end where nobody reads what it prints.
    pub fn ended_unread(&self) -> bool {
        const SIGPIPE: i32 = 13;
        self.ended() || self.complaint.is_empty() && self.status.is_some_and(|s| s.signal() == Some(SIGPIPE))
    }
}

fn all_of(stream: Option<impl Read + Send + 'static>) -> JoinHandle<Vec<u8>> {
    thread::spawn(move || {
        let mut all = Vec::new();
        if let Some(mut s) = stream {
            s.read_to_end(&mut all).unwrap();
        }
        all
    })
}

fn finish(mut child: Child) -> Ran {
    let (printed, complaint) = (all_of(child.stdout.take()), all_of(child.stderr.take()));
    let begun = Instant::now();
    let mut status = child.try_wait().unwrap();
    while status.is_none() && begun.elapsed() < LIMIT {
        thread::sleep(Duration::from_millis(1));
        status = child.try_wait().unwrap();
    }
    if status.is_none() {
        child.kill().unwrap();
        child.wait().unwrap();
    }
    Ran { printed: printed.join().unwrap(), complaint: complaint.join().unwrap(), status }
}

fn start(command: &mut Command, stdin: Stdio, stdout: Stdio) -> Child {
    command.stdin(stdin).stdout(stdout).stderr(Stdio::piped()).spawn().unwrap()
}

// The streams of a run, as a shell puts them.
fn through_shell(words: &str, run: &str, program: &str) -> Command {
    let mut command = Command::new("sh");
    command.args(["-c", words, run, program]);
    command
}

// The input through a pipe, in pieces of `piece` bytes.
pub fn in_pieces(run: &str, program: &str, input: &[u8], piece: usize) -> Ran {
    let mut child = start(Command::new(run).arg(program), Stdio::piped(), Stdio::piped());
    let mut stdin = child.stdin.take().unwrap();
    let text = input.to_vec();
    let writer = thread::spawn(move || {
        for (i, part) in text.chunks(piece).enumerate() {
            // a program that has read enough may be gone
            if stdin.write_all(part).is_err() {
                return;
            }
            if i < 20 && piece < text.len() {
                thread::sleep(Duration::from_millis(1));
            }
        }
    });
    let ran = finish(child);
    writer.join().unwrap();
    ran
}

// The library of faults.c, and the file that its runs have as standard input.
pub struct Faults {
    pub library: String,
    pub file: String,
}

impl Faults {
    // Reads and writes by the plans.
    pub fn planned(&self, run: &str, program: &str, input: &[u8], reads: &str, writes: &str) -> Ran {
        std::fs::write(&self.file, input).unwrap();
        let mut command = Command::new(run);
        command.arg(program).env("PRELOAD", &self.library).env("READS", reads).env("WRITES", writes);
        finish(start(&mut command, File::open(&self.file).unwrap().into(), Stdio::piped()))
    }
}

// Standard input that cannot be read.
pub fn from_folder(run: &str, program: &str) -> Ran {
    finish(start(Command::new(run).arg(program), File::open("/").unwrap().into(), Stdio::piped()))
}

pub fn from_closed(run: &str, program: &str) -> Ran {
    finish(start(&mut through_shell("exec \"$0\" \"$1\" <&-", run, program), Stdio::null(), Stdio::piped()))
}

// Standard output that cannot be written. The input comes once nobody reads any more.
fn unread(mut child: Child, input: &[u8]) -> Ran {
    drop(child.stdout.take());
    let mut stdin = child.stdin.take().unwrap();
    stdin.write_all(input).unwrap();
    drop(stdin);
    finish(child)
}

pub fn to_full(run: &str, program: &str, input: &[u8]) -> Ran {
    let full = OpenOptions::new().write(true).open("/dev/full").unwrap();
    unread(start(Command::new(run).arg(program), Stdio::piped(), full.into()), input)
}

pub fn to_closed(run: &str, program: &str, input: &[u8]) -> Ran {
    unread(start(&mut through_shell("exec \"$0\" \"$1\" >&-", run, program), Stdio::piped(), Stdio::null()), input)
}

pub fn to_nobody(run: &str, program: &str, input: &[u8]) -> Ran {
    unread(start(Command::new(run).arg(program), Stdio::piped(), Stdio::piped()), input)
}

// As to nobody, where the system does not end the program: its write fails.
pub fn to_nobody_unsignalled(run: &str, program: &str, input: &[u8]) -> Ran {
    unread(start(&mut through_shell("trap '' PIPE; exec \"$0\" \"$1\"", run, program), Stdio::piped(), Stdio::piped()), input)
}
