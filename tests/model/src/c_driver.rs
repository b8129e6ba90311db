//! Asks the C driver (driver.c) for the answers of the C call.

use crate::ccases::Case;
use std::io::{Read, Write};
use std::path::Path;
use std::process::{Command, Stdio};
use std::sync::mpsc::channel;
use std::thread;
use std::time::Duration;

/// For all cases of a run together; they take a second or two.
const PATIENCE: Duration = Duration::from_secs(60);

pub fn answers(driver: &Path, cases: &[Case]) -> Result<Vec<u32>, String> {
    let mut child = Command::new(driver)
        .stdin(Stdio::piped())
        .stdout(Stdio::piped())
        .spawn()
        .map_err(|e| format!("{} does not start: {e}", driver.display()))?;
    let mut input = child.stdin.take().ok_or("the driver has no input")?;
    let mut output = child.stdout.take().ok_or("the driver has no output")?;
    let sent: Vec<u8> = cases.iter().flat_map(Case::bytes).collect();
    // A driver that stops early shows below, by its status and by the answers that are missing.
    thread::spawn(move || input.write_all(&sent));
    let (to, all) = channel();
    thread::spawn(move || {
        let mut bytes = Vec::new();
        let read = output.read_to_end(&mut bytes);
        to.send(read.map(|_| bytes))
    });
    let Ok(bytes) = all.recv_timeout(PATIENCE) else {
        // Both fail only if the child is gone already.
        let _ = child.kill();
        let _ = child.wait();
        return Err("the driver hangs".to_string());
    };
    let bytes = bytes.map_err(|e| format!("the driver's answers cannot be read: {e}"))?;
    let status = child.wait().map_err(|e| format!("the driver cannot be waited for: {e}"))?;
    let answers: Vec<u32> = bytes.chunks_exact(4).map(|b| u32::from_be_bytes([b[0], b[1], b[2], b[3]])).collect();
    match status.success() && answers.len() == cases.len() {
        true => Ok(answers),
        false => Err(format!("the driver ended with {status} after {} of {} answers", answers.len(), cases.len())),
    }
}
