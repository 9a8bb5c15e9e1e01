//! Runs a program on a list, and the crate beside it.

use std::io;
use std::io::Read;
use std::io::Write;
use std::path::Path;
use std::process::Child;
use std::process::Command;
use std::process::Stdio;
use std::sync::mpsc;
use std::thread;
use std::time::Duration;
use std::time::Instant;

use oracle::twin::Twin;

pub struct Ran {
    pub output: Vec<u8>,
    /// Nothing if it ended by itself and well, else how it ended.
    pub trouble: Option<String>,
}

/// The crate's answers to a list.
pub fn answers(list: &[u8]) -> Vec<u8> {
    let mut twin = Twin::new();
    twin.feed(list);
    twin.finish();
    std::mem::take(twin.output())
}

/// Feeds a list to a program and gathers what it prints, up to `most` bytes and for `limit` at most.
pub fn run(program: &Path, list: &[u8], most: usize, limit: Duration) -> io::Result<Ran> {
    let begun = Instant::now();
    let mut child = Command::new(program).stdin(Stdio::piped()).stdout(Stdio::piped()).stderr(Stdio::null()).spawn()?;
    let (Some(mut input), Some(output)) = (child.stdin.take(), child.stdout.take()) else {
        return Err(io::Error::other("the program has no pipes"));
    };
    thread::scope(|scope| {
        // A program that ends before it has read everything breaks the pipe; its output tells.
        scope.spawn(move || drop(input.write_all(list)));
        let (sender, receiver) = mpsc::channel();
        scope.spawn(move || {
            let mut gathered = Vec::new();
            let read = output.take(most as u64 + 1).read_to_end(&mut gathered);
            drop(sender.send(read.map(|_| gathered)));
        });
        let gathered = match receiver.recv_timeout(limit) {
            Ok(gathered) => gathered?,
            Err(_) => {
                child.kill()?;
                child.wait()?;
                // The pipe is closed now, so this ends.
                let gathered = receiver.recv().map_err(io::Error::other)??;
                return Ok(Ran { output: gathered, trouble: Some(format!("killed after {limit:?}")) });
            }
        };
        if gathered.len() > most {
            child.kill()?;
            child.wait()?;
            return Ok(Ran { output: gathered, trouble: Some("printed too much".into()) });
        }
        let trouble = ending(&mut child, limit.saturating_sub(begun.elapsed()))?;
        Ok(Ran { output: gathered, trouble })
    })
}

fn ending(child: &mut Child, limit: Duration) -> io::Result<Option<String>> {
    let begun = Instant::now();
    loop {
        if let Some(status) = child.try_wait()? {
            return Ok((!status.success()).then(|| status.to_string()));
        }
        if begun.elapsed() > limit {
            child.kill()?;
            child.wait()?;
            return Ok(Some("did not end".into()));
        }
        thread::sleep(Duration::from_micros(50));
    }
}
