//! The second replay program: plays the command file on standard input and prints its account.
//!
//! `replay` plays one file. `replay --batch` plays a stream of files, each behind its length in 4 bytes, highest byte
//! first, and prints behind each account an empty line.

use std::io::{self, BufWriter, Read, Write};
use std::process::ExitCode;

use second::account;

fn replay() -> io::Result<()> {
    let mut file = Vec::new();
    io::stdin().lock().take(account::LIMIT as u64).read_to_end(&mut file)?;
    if file.len() == account::LIMIT {
        eprintln!("replay: read {} bytes; what follows was not read", account::LIMIT);
    }
    let mut out = BufWriter::new(io::stdout().lock());
    account::play(&file, &mut out, |_| ())?;
    out.flush()
}

fn replay_batch() -> io::Result<()> {
    let mut stream = Vec::new();
    io::stdin().lock().read_to_end(&mut stream)?;
    let mut out = BufWriter::new(io::stdout().lock());
    let mut rest = &stream[..];
    while let Some((length, behind)) = rest.split_first_chunk::<4>() {
        let length = u32::from_be_bytes(*length) as usize;
        let Some((file, behind)) = behind.split_at_checked(length) else { break };
        account::play(file, &mut out, |_| ())?;
        writeln!(out)?;
        rest = behind;
    }
    out.flush()?;
    if rest.is_empty() {
        Ok(())
    } else {
        Err(io::Error::other("the batch is cut short"))
    }
}

fn main() -> ExitCode {
    let arguments: Vec<String> = std::env::args().skip(1).collect();
    let played = match arguments.iter().map(String::as_str).collect::<Vec<_>>()[..] {
        [] => replay(),
        ["--batch"] => replay_batch(),
        _ => {
            eprintln!("usage: replay [--batch] < FILE");
            return ExitCode::from(2);
        }
    };
    match played {
        Ok(()) => ExitCode::SUCCESS,
        Err(error) => {
            eprintln!("replay: {error}");
            ExitCode::FAILURE
        }
    }
}
