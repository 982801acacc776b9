//! Runs of a program on a text.

use std::io::{ErrorKind, Read, Write};
use std::process::{Child, Command, ExitStatus, Stdio};
use std::thread;
use std::time::{Duration, Instant};

/// A text takes well under a second; a program that waits for ever is a failure, not a hang.
const LONGEST: Duration = Duration::from_secs(60);

/// What the program printed; an error if it could not be run, failed, or wrote to standard error. The text is written in
/// so many pieces with a pause after each, as a person or a slow line would.
pub fn printed(program: &str, text: &[u8], pieces: usize) -> Result<Vec<u8>, String> {
    let mut command = Command::new(program);
    command.stdin(Stdio::piped()).stdout(Stdio::piped()).stderr(Stdio::piped());
    let mut child = command.spawn().map_err(|error| format!("{program}: {error}"))?;
    let mut stdout = child.stdout.take().unwrap();
    let mut stderr = child.stderr.take().unwrap();
    let reader = thread::spawn(move || {
        let (mut printed, mut complaint) = (Vec::new(), Vec::new());
        let read = stdout.read_to_end(&mut printed).and_then(|_| stderr.read_to_end(&mut complaint));
        read.map(|_| (printed, complaint))
    });
    write(&mut child, text, pieces).map_err(|error| format!("writing the text: {error}"))?;
    let status = wait(&mut child)?;
    let read = reader.join().map_err(|_| "reading failed".to_string())?;
    let (printed, complaint) = read.map_err(|error| format!("reading: {error}"))?;
    if !status.success() {
        return Err(format!("ended with {status}"));
    }
    if !complaint.is_empty() {
        return Err(format!("wrote to standard error: {}", String::from_utf8_lossy(&complaint)));
    }
    Ok(printed)
}

/// A program that has read as much as it takes may close the pipe before all is written.
fn write(child: &mut Child, text: &[u8], pieces: usize) -> std::io::Result<()> {
    let mut stdin = child.stdin.take().unwrap();
    let piece = text.len().div_ceil(pieces).max(1);
    for chunk in text.chunks(piece) {
        match stdin.write_all(chunk) {
            Err(error) if error.kind() == ErrorKind::BrokenPipe => break,
            outcome => outcome?,
        }
        if pieces > 1 {
            thread::sleep(Duration::from_millis(5));
        }
    }
    Ok(())
}

fn wait(child: &mut Child) -> Result<ExitStatus, String> {
    let start = Instant::now();
    loop {
        if let Some(status) = child.try_wait().map_err(|error| error.to_string())? {
            return Ok(status);
        }
        if start.elapsed() > LONGEST {
            child.kill().map_err(|error| error.to_string())?;
            return Err(format!("still running after {} seconds", LONGEST.as_secs()));
        }
        thread::sleep(Duration::from_micros(200));
    }
}
