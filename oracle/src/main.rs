//! Reads a call list on standard input and prints the crate's answers, as the call program prints its own.

use std::io;
use std::io::Read;
use std::io::Write;
use std::process::ExitCode;

use oracle::twin::Twin;

fn main() -> ExitCode {
    match run() {
        Ok(()) => ExitCode::SUCCESS,
        Err(error) => {
            eprintln!("oracle: {error}");
            ExitCode::FAILURE
        }
    }
}

fn run() -> io::Result<()> {
    let mut input = io::stdin().lock();
    let mut output = io::stdout().lock();
    let mut piece = vec![0; 1 << 16];
    let mut twin = Twin::new();
    loop {
        let count = match input.read(&mut piece) {
            Ok(0) => break,
            Ok(count) => count,
            Err(error) if error.kind() == io::ErrorKind::Interrupted => continue,
            Err(error) => return Err(error),
        };
        twin.feed(&piece[..count]);
        output.write_all(twin.output())?;
        twin.output().clear();
    }
    twin.finish();
    output.write_all(twin.output())?;
    // How the last queue ends belongs to no answer.
    std::mem::forget(twin);
    output.flush()
}
