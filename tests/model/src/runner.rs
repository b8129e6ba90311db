//! Runs the service program on a stream: all at once, or in pieces, where each piece is sent only when every message
//! that was whole before it has been answered. So a service that holds its answers back is caught as well.

use crate::desk::Desk;
use crate::line::Line;
use crate::rules::RIGHT_RULES;
use std::fmt;
use std::io::{Read, Write};
use std::path::PathBuf;
use std::process::{Child, ChildStdin, Command, ExitStatus, Stdio};
use std::sync::atomic::{AtomicUsize, Ordering};
use std::sync::mpsc::{channel, Receiver, RecvTimeoutError};
use std::sync::Arc;
use std::thread;
use std::time::{Duration, Instant};

/// A program that has hung this often is not started again: every wait costs the whole patience.
const HANGS: usize = 3;

#[derive(Clone)]
pub struct Program {
    pub path: PathBuf,
    words: Vec<String>,
    /// How long to wait for an answer that is due, before the program is said to hang.
    patience: Duration,
    hung: Arc<AtomicUsize>,
}

/// What went wrong. A hang is told apart, since trying it again costs the whole wait again.
#[derive(Clone, Debug, PartialEq, Eq)]
pub enum Trouble {
    Hung(String),
    Failed(String),
}

impl fmt::Display for Trouble {
    fn fmt(&self, f: &mut fmt::Formatter) -> fmt::Result {
        let (Trouble::Hung(why) | Trouble::Failed(why)) = self;
        write!(f, "{why}")
    }
}

struct Running {
    child: Child,
    input: Option<ChildStdin>,
    output: Receiver<Vec<u8>>,
    seen: Vec<u8>,
    patience: Duration,
    hung: Arc<AtomicUsize>,
}

impl Program {
    pub fn new(path: PathBuf, words: &[&str], patience: Duration) -> Program {
        let words = words.iter().map(|w| w.to_string()).collect();
        Program { path, words, patience, hung: Arc::default() }
    }

    fn start(&self) -> Result<Running, Trouble> {
        if self.hung.load(Ordering::Relaxed) >= HANGS {
            return Err(Trouble::Hung("the program hung before and is not started again".to_string()));
        }
        let mut child = Command::new(&self.path)
            .args(&self.words)
            .stdin(Stdio::piped())
            .stdout(Stdio::piped())
            .stderr(Stdio::null())
            .spawn()
            .map_err(|e| Trouble::Failed(format!("{} does not start: {e}", self.path.display())))?;
        let input = child.stdin.take();
        let from = child.stdout.take();
        let (to, output) = channel();
        thread::spawn(move || {
            let Some(mut from) = from else { return };
            let mut buffer = [0; 1 << 16];
            while let Ok(length) = from.read(&mut buffer) {
                if length == 0 || to.send(buffer[..length].to_vec()).is_err() {
                    break;
                }
            }
        });
        Ok(Running { child, input, output, seen: Vec::new(), patience: self.patience, hung: self.hung.clone() })
    }

    pub fn whole(&self, stream: &[u8]) -> Result<Vec<u8>, Trouble> {
        let mut running = self.start()?;
        let input = running.input.take();
        thread::scope(|scope| {
            scope.spawn(move || {
                // A service that has ended, as after an 11, does not read the rest: no fault.
                input.map(|mut input| input.write_all(stream))
            });
            running.end()
        })
    }

    /// The stream cut at the given places, which must rise.
    pub fn pieces(&self, stream: &[u8], cuts: &[usize]) -> Result<Vec<u8>, Trouble> {
        let mut running = self.start()?;
        let mut desk = Desk::new(&RIGHT_RULES);
        let (mut due, mut start) = (0, 0);
        for end in cuts.iter().copied().chain([stream.len()]) {
            let piece = &stream[start..end];
            start = end;
            running.write(piece);
            // When a broken header is noticed is the service's own affair; whole messages are answered at once.
            let answers = desk.feed(piece);
            due += answers.iter().filter(|(_, line)| *line != Line::Refused(11)).count();
            if answers.is_empty() {
                // Nothing to wait for, so give the service the time to see this piece alone.
                thread::sleep(Duration::from_micros(50));
            }
            running.wait_for_lines(due)?;
        }
        running.input = None;
        running.end()
    }
}

impl Running {
    fn write(&mut self, piece: &[u8]) {
        if let Some(input) = &mut self.input {
            if input.write_all(piece).and_then(|()| input.flush()).is_err() {
                self.input = None;
            }
        }
    }

    fn lines(&self) -> usize {
        self.seen.iter().filter(|&&byte| byte == b'\n').count()
    }

    fn wait_for_lines(&mut self, due: usize) -> Result<(), Trouble> {
        let until = Instant::now() + self.patience;
        let mut lines = self.lines();
        while lines < due {
            match self.output.recv_timeout(until.saturating_duration_since(Instant::now())) {
                Ok(bytes) => {
                    lines += bytes.iter().filter(|&&byte| byte == b'\n').count();
                    self.seen.extend(bytes);
                }
                Err(RecvTimeoutError::Disconnected) => return Ok(()),
                Err(RecvTimeoutError::Timeout) => {
                    self.stop();
                    let why = format!("{due} messages are whole, and only {lines} were answered in time");
                    return Err(Trouble::Hung(why));
                }
            }
        }
        Ok(())
    }

    fn end(mut self) -> Result<Vec<u8>, Trouble> {
        let until = Instant::now() + self.patience;
        loop {
            match self.output.recv_timeout(until.saturating_duration_since(Instant::now())) {
                Ok(bytes) => self.seen.extend(bytes),
                Err(RecvTimeoutError::Disconnected) => break,
                Err(RecvTimeoutError::Timeout) => {
                    self.stop();
                    return Err(Trouble::Hung("the input has ended, and the program goes on".to_string()));
                }
            }
        }
        let status = self.child.wait();
        let status = status.map_err(|e| Trouble::Failed(format!("the program cannot be waited for: {e}")))?;
        match killed_by(status) {
            Some(signal) => Err(Trouble::Failed(format!("the program was ended by signal {signal}"))),
            None => Ok(self.seen),
        }
    }

    fn stop(&mut self) {
        self.hung.fetch_add(1, Ordering::Relaxed);
        // Both fail only if the child is gone already.
        let _ = self.child.kill();
        let _ = self.child.wait();
    }
}

fn killed_by(status: ExitStatus) -> Option<i32> {
    use std::os::unix::process::ExitStatusExt;
    status.signal()
}
