//! What a trial has played, counted.

use std::fmt;

use second::account::{Outcome, Player};
use second::law;
use second::register::{Kind, State};

#[derive(Clone, Default)]
pub struct Figures {
    pub files: u64,
    pub bytes: u64,
    pub longest: u64,
    pub commands: u64,
    pub ok: u64,
    pub done: u64,
    pub lists: u64,
    /// By the refusal's number.
    pub refused: [u64; 20],
    /// Writes and reads done, writes spent, operations that a file leaves open, and full journals.
    pub writes: u64,
    pub reads: u64,
    pub spent: u64,
    pub left: u64,
    pub full: u64,
    /// Files by the number of stations of their register; at 0 those without one.
    pub stations: [u64; 17],
    /// Journals of the second program that break the law of the stamps.
    pub unlawful: u64,
    pub differences: u64,
}

impl Figures {
    pub fn outcome(&mut self, outcome: Outcome) {
        self.commands += 1;
        match outcome {
            Outcome::Ok => self.ok += 1,
            Outcome::Done(_) => self.done += 1,
            Outcome::Lines => self.lists += 1,
            Outcome::No(refusal) => self.refused[refusal.number()] += 1,
        }
    }

    pub fn file(&mut self, file: &[u8], player: &Player) {
        let size = file.len() as u64;
        self.files += 1;
        self.bytes += size;
        self.longest = self.longest.max(size);
        let Some(register) = player.register() else {
            self.stations[0] += 1;
            return;
        };
        self.stations[usize::from(register.stations())] += 1;
        self.full += u64::from(register.journal().len() == second::register::JOURNAL_LINES);
        self.unlawful += u64::from(!law::kept(register.start(), register.journal()));
        for line in register.journal() {
            match (line.state, line.kind) {
                (State::Done, Kind::Write) => self.writes += 1,
                (State::Done, Kind::Read) => self.reads += 1,
                (State::Spent, _) => self.spent += 1,
                _ => self.left += 1,
            }
        }
    }

    pub fn add(&mut self, other: &Figures) {
        self.files += other.files;
        self.bytes += other.bytes;
        self.longest = self.longest.max(other.longest);
        self.commands += other.commands;
        self.ok += other.ok;
        self.done += other.done;
        self.lists += other.lists;
        self.writes += other.writes;
        self.reads += other.reads;
        self.spent += other.spent;
        self.left += other.left;
        self.full += other.full;
        self.unlawful += other.unlawful;
        self.differences += other.differences;
        let arrays = [(&mut self.refused[..], &other.refused[..]), (&mut self.stations[..], &other.stations[..])];
        for (mine, others) in arrays {
            mine.iter_mut().zip(others).for_each(|(a, b)| *a += b);
        }
    }
}

/// A table for docs/TESTING.md.
impl fmt::Display for Figures {
    fn fmt(&self, f: &mut fmt::Formatter<'_>) -> fmt::Result {
        writeln!(f, "| what | number |\n|---|---:|")?;
        let mut row = |name: &str, number: u64| writeln!(f, "| {name} | {number} |");
        row("files", self.files)?;
        row("bytes", self.bytes)?;
        row("bytes of the longest file", self.longest)?;
        row("commands carried out or refused", self.commands)?;
        row("ok", self.ok)?;
        row("done", self.done)?;
        row("lines", self.lists)?;
        for (number, times) in self.refused.iter().enumerate().filter(|(_, times)| **times > 0) {
            row(&format!("no {number}"), *times)?;
        }
        row("writes done", self.writes)?;
        row("reads done", self.reads)?;
        row("writes spent", self.spent)?;
        row("operations still open at the end of their file", self.left)?;
        row("journals full at the end of their file", self.full)?;
        for (stations, files) in self.stations.iter().enumerate() {
            match stations {
                0 => row("files that make no register", *files)?,
                n => row(&format!("files with {n} station{}", if n == 1 { "" } else { "s" }), *files)?,
            }
        }
        row("journals that break the law of the stamps", self.unlawful)?;
        row("differences", self.differences)
    }
}
