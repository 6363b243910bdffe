//! The register in plain Rust, stepped as crates/stepping steps the proved one: arguments, calls and answers are the same.

#[derive(Clone, Copy, PartialEq, Eq, PartialOrd, Ord)]
struct Stamp {
    count: u32,
    owner: u8,
}

impl Stamp {
    fn next(self, station: u8) -> Option<Stamp> {
        Some(Stamp { count: self.count.checked_add(1)?, owner: station })
    }
}

#[derive(Clone, Copy)]
struct Record {
    tag: Stamp,
    value: u32,
}

#[derive(Clone, Copy, Debug)]
#[allow(dead_code)]
enum Refusal {
    JournalSize,
    UnknownStation,
    Busy,
    JournalFull,
    Idle,
    Spent,
    Unreachable((u8, u8, u8)),
    RecordOpen,
    NothingOpen,
}

#[derive(Clone, Copy)]
struct Cell {
    settled: Record,
    opened: Record,
    up: bool,
}

struct Board {
    stations: u8,
    cells: Vec<Cell>,
    readers: [Option<u8>; 16],
}

impl Board {
    fn new(stations: u8, x: Record) -> Board {
        let n = usize::from(stations);
        Board { stations, cells: vec![Cell { settled: x, opened: x, up: true }; n * n], readers: [None; 16] }
    }

    fn known(&self, station: u8) -> Result<(), Refusal> {
        if station >= 1 && station <= self.stations { Ok(()) } else { Err(Refusal::UnknownStation) }
    }

    fn reach(&self, writer: u8, reader: u8) -> Result<usize, Refusal> {
        self.known(writer)?;
        self.known(reader)?;
        let at = usize::from(writer - 1) * usize::from(self.stations) + usize::from(reader - 1);
        if self.cells[at].up { Ok(at) } else { Err(Refusal::Unreachable((0, writer, reader))) }
    }

    fn read(&self, writer: u8, reader: u8) -> Result<Record, Refusal> {
        let cell = &self.cells[self.reach(writer, reader)?];
        let open = self.readers[usize::from(writer - 1)] == Some(reader);
        Ok(if open { cell.opened } else { cell.settled })
    }

    fn start(&mut self, writer: u8, reader: u8, x: Record) -> Result<(), Refusal> {
        let at = self.reach(writer, reader)?;
        let open = &mut self.readers[usize::from(writer - 1)];
        if open.is_some() {
            return Err(Refusal::RecordOpen);
        }
        *open = Some(reader);
        self.cells[at].opened = x;
        Ok(())
    }

    fn finish(&mut self, writer: u8) -> Result<(), Refusal> {
        self.known(writer)?;
        let reader = self.readers[usize::from(writer - 1)].ok_or(Refusal::NothingOpen)?;
        let at = self.reach(writer, reader)?;
        self.cells[at].settled = self.cells[at].opened;
        self.readers[usize::from(writer - 1)] = None;
        Ok(())
    }
}

#[derive(Clone, Copy, PartialEq, Eq)]
enum Kind {
    Write,
    Read,
}

#[derive(Clone, Copy, PartialEq, Eq)]
enum State {
    Collecting,
    Spreading,
    Done,
    Spent,
}

#[derive(Clone, Copy)]
#[allow(dead_code)]
struct Line {
    kind: Kind,
    station: u8,
    state: State,
    stamp: Stamp,
    value: u32,
    opened: u64,
    ended: u64,
}

#[derive(Clone, Copy)]
struct Row {
    line: usize,
    progress: u64,
}

#[allow(dead_code)]
enum Stepped {
    Going,
    Done(Stamp, u32),
}

struct Register {
    stations: u8,
    size: usize,
    used: usize,
    moment: u64,
    origin: Record,
    rows: [Option<Row>; 16],
}

impl Register {
    fn checked(&self, journal: &[Line], station: u8) -> Result<usize, Refusal> {
        if journal.len() < self.size {
            return Err(Refusal::JournalSize);
        }
        if station < 1 || station > self.stations {
            return Err(Refusal::UnknownStation);
        }
        Ok(usize::from(station - 1))
    }

    fn open(&mut self, journal: &mut [Line], station: u8, kind: Kind, value: u32) -> Result<usize, Refusal> {
        let at = self.checked(journal, station)?;
        if self.rows[at].is_some() {
            return Err(Refusal::Busy);
        }
        if self.used >= self.size {
            return Err(Refusal::JournalFull);
        }
        self.moment += 1;
        let (stamp, opened) = (self.origin.tag, self.moment);
        journal[self.used] = Line { kind, station, state: State::Collecting, stamp, value, opened, ended: 0 };
        self.rows[at] = Some(Row { line: self.used, progress: 0 });
        self.used += 1;
        Ok(self.used)
    }

    fn step(&mut self, bank: &mut Board, journal: &mut [Line], station: u8) -> Result<Stepped, Refusal> {
        let at = self.checked(journal, station)?;
        let row = self.rows[at].as_mut().ok_or(Refusal::Idle)?;
        let line = &mut journal[row.line];
        let n = u64::from(self.stations);
        let progress = row.progress;
        if progress < n {
            let met = bank.read(progress as u8 + 1, station)?;
            if line.stamp < met.tag {
                line.stamp = met.tag;
                if line.kind == Kind::Read {
                    line.value = met.value;
                }
            }
            if progress + 1 == n {
                if line.kind == Kind::Write {
                    let Some(stamp) = line.stamp.next(station) else {
                        self.moment += 1;
                        line.state = State::Spent;
                        line.ended = self.moment;
                        self.rows[at] = None;
                        return Err(Refusal::Spent);
                    };
                    line.stamp = stamp;
                }
                line.state = State::Spreading;
            }
        } else if (progress - n) % 2 == 0 {
            bank.start(station, ((progress - n) / 2) as u8 + 1, Record { tag: line.stamp, value: line.value })?;
        } else {
            bank.finish(station)?;
            if progress + 1 == 3 * n {
                self.moment += 1;
                line.state = State::Done;
                line.ended = self.moment;
                self.rows[at] = None;
                return Ok(Stepped::Done(line.stamp, line.value));
            }
        }
        row.progress += 1;
        self.moment += 1;
        Ok(Stepped::Going)
    }
}

const STATIONS: u8 = 16;

/// Every station opens an operation, writes and reads in turn, and takes its steps.
#[inline(never)]
fn round(register: &mut Register, bank: &mut Board, journal: &mut [Line], turn: u64) -> Result<u64, Refusal> {
    let mut accepted = 0u64;
    for station in 1..=STATIONS {
        if (turn + u64::from(station)) % 2 == 0 {
            register.open(journal, station, Kind::Write, station.into())?;
        } else {
            let value = register.origin.value;
            register.open(journal, station, Kind::Read, value)?;
        }
    }
    for _ in 0..3 * STATIONS {
        for station in 1..=STATIONS {
            match register.step(bank, journal, station)? {
                Stepped::Going | Stepped::Done(_, _) => accepted = accepted.wrapping_add(1),
            }
        }
    }
    Ok(accepted)
}

fn number(word: Option<String>) -> u64 {
    word.and_then(|w| w.parse().ok()).expect("two numbers: journal lines, rounds")
}

fn main() {
    let mut args = std::env::args().skip(1);
    let lines = number(args.next());
    let rounds = number(args.next());
    let origin = Record { tag: Stamp { count: 0, owner: 0 }, value: 7 };
    let mut bank = Board::new(STATIONS, origin);
    let unused =
        Line { kind: Kind::Read, station: 0, state: State::Done, stamp: origin.tag, value: 7, opened: 0, ended: 0 };
    let mut journal = vec![unused; lines as usize];
    let mut register =
        Register { stations: STATIONS, size: journal.len(), used: 0, moment: 0, origin, rows: [None; 16] };
    let mut accepted = 0;
    for turn in 0..rounds {
        match round(&mut register, &mut bank, &mut journal, turn) {
            Ok(steps) => accepted += steps,
            Err(refusal) => {
                println!("no {refusal:?}");
                return;
            }
        }
    }
    println!("{accepted}");
}
