//! Trials of a replay program: makes command files, and compares its accounts with those of the second program.

mod figures;
mod files;
mod longest;
mod random;
mod runs;
mod script;

use std::fs::{self, File};
use std::io::{self, BufWriter, Read, Write};
use std::path::{Path, PathBuf};
use std::process::{Command, ExitCode, Stdio};
use std::sync::atomic::{AtomicU64, Ordering};
use std::thread;
use std::time::{Duration, Instant};

use figures::Figures;
use second::account::play;

const USAGE: &str = "usage: trials compare COUNT PROGRAM FOLDER [FIRST SEED]
       trials generate SEED
       trials batch COUNT
       trials longest NAME
       trials time FILE RUNS PROGRAM ..";

/// The n-th file of a trial, from 0: first the written ones, then one for each seed.
fn nth(fixed: &[Vec<u8>], first_seed: u64, n: u64) -> Vec<u8> {
    match fixed.get(n as usize) {
        Some(file) => file.clone(),
        None => files::seeded(first_seed + n - fixed.len() as u64),
    }
}

/// Where a program is run: its path, and a folder for the file that it reads and for files that it differs on.
struct Bench<'a> {
    program: &'a Path,
    folder: &'a Path,
}

impl Bench<'_> {
    /// What the program prints for a file, and its exit status. Every eighth file comes through a pipe, in pieces.
    fn account(&self, worker: u64, n: u64, file: &[u8]) -> io::Result<(Vec<u8>, Option<i32>)> {
        let mut command = Command::new(self.program);
        command.stdout(Stdio::piped()).stderr(Stdio::null());
        let piped = n % 8 == 0;
        let mut child = if piped {
            command.stdin(Stdio::piped()).spawn()?
        } else {
            let path = self.folder.join(format!("input-{worker}"));
            fs::write(&path, file)?;
            command.stdin(File::open(&path)?).spawn()?
        };
        let mut text = Vec::new();
        let stdin = child.stdin.take();
        let stdout = child.stdout.take();
        thread::scope(|scope| {
            if let Some(mut stdin) = stdin {
                // A program that stops reading at the limit closes the pipe.
                scope.spawn(move || file.chunks(1 + file.len() / 3).try_for_each(|piece| stdin.write_all(piece)));
            }
            stdout.map_or(Ok(0), |mut stdout| stdout.read_to_end(&mut text))
        })?;
        Ok((text, child.wait()?.code()))
    }

    /// Plays a file by both programs, and keeps it if they differ.
    fn trial(&self, worker: u64, n: u64, file: &[u8], figures: &mut Figures) -> io::Result<()> {
        let mut expected = Vec::new();
        let player = play(file, &mut expected, |outcome| figures.outcome(outcome))?;
        figures.file(file, &player);
        let (text, status) = self.account(worker, n, file)?;
        if text == expected && status == Some(0) {
            return Ok(());
        }
        figures.differences += 1;
        for (what, bytes) in [("stdin", file), ("expected", &expected), ("printed", &text)] {
            fs::write(self.folder.join(format!("difference-{n}.{what}")), bytes)?;
        }
        if figures.differences <= 5 {
            let line = text.iter().zip(&expected).take_while(|(a, b)| a == b).filter(|(a, _)| **a == b'\n').count() + 1;
            eprintln!("difference: file {n}, line {line}, exit status {status:?}");
        }
        Ok(())
    }

    fn compare(&self, count: u64, first_seed: u64) -> io::Result<Figures> {
        let fixed = files::fixed();
        let next = AtomicU64::new(0);
        let work = |worker: u64| -> io::Result<Figures> {
            let mut figures = Figures::default();
            loop {
                let n = next.fetch_add(1, Ordering::Relaxed);
                if n >= count {
                    return Ok(figures);
                }
                self.trial(worker, n, &nth(&fixed, first_seed, n), &mut figures)?;
            }
        };
        let workers = thread::available_parallelism()?.get() as u64;
        let mut all = Figures::default();
        thread::scope(|scope| {
            let running: Vec<_> = (0..workers).map(|worker| scope.spawn(move || work(worker))).collect();
            for worker in running {
                all.add(&worker.join().expect("a worker does not panic")?);
            }
            Ok(all)
        })
    }
}

/// Prints a stream of files, each behind its length in 4 bytes, highest byte first.
fn batch(count: u64) -> io::Result<()> {
    let mut out = BufWriter::new(io::stdout().lock());
    for file in files::fixed().into_iter().chain((1..).map(files::short)).take(count as usize) {
        out.write_all(&(file.len() as u32).to_be_bytes())?;
        out.write_all(&file)?;
    }
    out.flush()
}

/// Runs programs on a file in turn, and prints the least and the middle time of each in milliseconds.
fn time(file: &str, runs: u64, programs: &[&str]) -> io::Result<()> {
    let mut times: Vec<Vec<Duration>> = vec![Vec::new(); programs.len()];
    for _ in 0..runs {
        for (program, times) in programs.iter().zip(&mut times) {
            let begin = Instant::now();
            let mut command = Command::new(program);
            let status = command.stdin(File::open(file)?).stdout(Stdio::null()).stderr(Stdio::null()).status()?;
            times.push(begin.elapsed());
            if !status.success() {
                return Err(io::Error::other(format!("{program}: {status}")));
            }
        }
    }
    for times in &mut times {
        times.sort();
        let milliseconds = |at: usize| times[at].as_secs_f64() * 1000.0;
        println!("{:.3} {:.3}", milliseconds(0), milliseconds(times.len() / 2));
    }
    Ok(())
}

fn run(arguments: &[&str]) -> io::Result<bool> {
    let number = |text: &str| text.parse::<u64>().map_err(|_| io::Error::other(format!("not a number: {text}")));
    match *arguments {
        ["compare", count, program, folder, ref seed @ ..] if seed.len() <= 1 => {
            let program = fs::canonicalize(program)?;
            let folder = PathBuf::from(folder);
            let bench = Bench { program: &program, folder: &folder };
            let figures = bench.compare(number(count)?, seed.first().map_or(Ok(1), |seed| number(seed))?)?;
            print!("{figures}");
            Ok(figures.differences == 0 && figures.unlawful == 0)
        }
        ["generate", seed] => io::stdout().write_all(&files::seeded(number(seed)?)).map(|()| true),
        ["batch", count] => batch(number(count)?).map(|()| true),
        ["longest", name] => match longest::file(name) {
            Some(file) => io::stdout().write_all(&file).map(|()| true),
            None => Err(io::Error::other(format!("no longest file {name}"))),
        },
        ["time", file, runs, ref programs @ ..] => time(file, number(runs)?.max(1), programs).map(|()| true),
        _ => Err(io::Error::other(USAGE)),
    }
}

fn main() -> ExitCode {
    let arguments: Vec<String> = std::env::args().skip(1).collect();
    match run(&arguments.iter().map(String::as_str).collect::<Vec<_>>()) {
        Ok(true) => ExitCode::SUCCESS,
        Ok(false) => ExitCode::FAILURE,
        Err(error) => {
            eprintln!("trials: {error}");
            ExitCode::from(2)
        }
    }
}
