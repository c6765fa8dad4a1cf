//! Running a program on an input, with a limit of time.

use std::io::{self, Read, Write};
use std::process::{Child, ChildStdin, Command, Stdio};
use std::sync::Mutex;
use std::sync::mpsc::{self, RecvTimeoutError};
use std::thread;
use std::time::Duration;

use reading::Rng;

use crate::inputs::Input;

/// A run that takes longer is ended. One takes milliseconds; the machine may be busy.
pub const LIMIT: Duration = Duration::from_secs(20);

/// What a program wrote, and how it ended.
#[derive(Debug, PartialEq, Eq)]
pub struct Ran {
    pub output: Vec<u8>,
    /// Its exit status; none if a signal ended it, as at the limit of time.
    pub status: Option<i32>,
}

/// Runs a program, with the words after it, on the input.
pub fn run(command: &[String], input: &Input) -> io::Result<Ran> {
    let mut child = Command::new(&command[0])
        .args(&command[1..])
        .stdin(Stdio::piped())
        .stdout(Stdio::piped())
        .spawn()?;
    let stdin = child.stdin.take().expect("piped");
    let mut stdout = child.stdout.take().expect("piped");
    let child = Mutex::new(child);
    let (done, ended) = mpsc::channel::<()>();
    thread::scope(|scope| {
        let writer = scope.spawn(|| write(stdin, input));
        let child = &child;
        scope.spawn(move || {
            if ended.recv_timeout(LIMIT) == Err(RecvTimeoutError::Timeout) {
                // It fails only on a process that has ended.
                let _ = lock(child).kill();
            }
        });
        let mut output = Vec::new();
        stdout.read_to_end(&mut output)?;
        let status = wait(child)?;
        drop(done);
        writer.join().expect("the writer does not panic")?;
        Ok(Ran { output, status })
    })
}

fn lock(child: &Mutex<Child>) -> std::sync::MutexGuard<'_, Child> {
    child.lock().expect("no holder panics")
}

/// Its exit status, once it has one; the lock is free between the looks, for the one who may have to end it.
fn wait(child: &Mutex<Child>) -> io::Result<Option<i32>> {
    loop {
        if let Some(status) = lock(child).try_wait()? {
            return Ok(status.code());
        }
        thread::sleep(Duration::from_micros(50));
    }
}

/// Writes the input, in one piece or in several with pauses. A program that ended early has closed its end: that is no error.
fn write(mut stdin: ChildStdin, input: &Input) -> io::Result<()> {
    let mut rng = Rng::new(input.bytes.len() as u64);
    let mut rest = input.bytes.as_slice();
    while !rest.is_empty() {
        let size = if input.in_pieces {
            let most = rng.pick(&[1, 3, 20, 200]);
            rng.between(1, most).min(rest.len())
        } else {
            rest.len()
        };
        let (piece, after) = rest.split_at(size);
        match stdin.write_all(piece).and_then(|()| stdin.flush()) {
            Err(error) if error.kind() == io::ErrorKind::BrokenPipe => return Ok(()),
            written => written?,
        }
        rest = after;
        if input.in_pieces && rng.one_in(2) {
            thread::sleep(Duration::from_micros(200 * rng.between(1, 5) as u64));
        }
    }
    Ok(())
}
