//! The register: up to 16 stations hold one value together, over a bank of cells, with a journal of what they did.

use std::fmt;

use crate::cells::{index, Bank, BankKind, Each, Record, Refusal, Stamp};

/// The size of the journal: so many operations can be opened.
pub const JOURNAL_LINES: usize = 512;

#[derive(Clone, Copy, Debug, PartialEq, Eq)]
pub enum Kind {
    Write,
    Read,
}

/// How far an operation is.
#[derive(Clone, Copy, Debug, PartialEq, Eq)]
pub enum State {
    /// It reads the cells that its station reads.
    Collecting,
    /// It is stamped, and writes its record into the cells that its station writes.
    Spreading,
    /// It has ended, with its record in all of them.
    Done,
    /// It is a write that ended with no stamp of its own: the greatest it met has no next.
    Spent,
}

/// A line of the journal: the account of one operation.
#[derive(Clone, Copy, Debug, PartialEq, Eq)]
pub struct Line {
    pub kind: Kind,
    pub station: u8,
    pub state: State,
    pub record: Record,
    /// The moment of its open.
    pub opened: u64,
    /// The moment of its end, 0 until then.
    pub ended: u64,
}

impl fmt::Display for Line {
    fn fmt(&self, f: &mut fmt::Formatter<'_>) -> fmt::Result {
        let kind = match self.kind {
            Kind::Write => "W",
            Kind::Read => "R",
        };
        let state = match self.state {
            State::Collecting => "collecting",
            State::Spreading => "spreading",
            State::Done => "done",
            State::Spent => "spent",
        };
        let Self { station, record: Record { stamp, value }, opened, ended, .. } = self;
        write!(f, "{kind} {station} {state} {stamp} {value} {opened} {ended}")
    }
}

impl Line {
    /// Takes the stamp of a record that was read, where it is greater; a read takes its value too.
    fn meet(&mut self, met: Record) {
        if met.stamp > self.record.stamp {
            match self.kind {
                Kind::Write => self.record.stamp = met.stamp,
                Kind::Read => self.record = met,
            }
        }
    }

    /// The stamp to spread under, once all cells are read: a read keeps what it has, a write takes the next one.
    fn final_stamp(&self) -> Option<Stamp> {
        match self.kind {
            Kind::Write => self.record.stamp.next(self.station),
            Kind::Read => Some(self.record.stamp),
        }
    }

    fn end(&mut self, state: State, moment: u64) {
        self.state = state;
        self.ended = moment;
    }
}

/// The operation that a station has open: where its line stands in the journal, and how many steps it has taken.
#[derive(Clone, Copy)]
struct Open {
    line: usize,
    progress: u8,
}

/// What the stations share: the cells and the journal, and for each station how far it is.
#[derive(Clone)]
pub struct Register {
    bank: Bank,
    start: Record,
    journal: Vec<Line>,
    /// By station: the open operation, `None` where the station is idle.
    open: Each<Option<Open>>,
    /// Counts the accepted opens and steps, and the steps that end a write as spent.
    moment: u64,
}

impl Register {
    /// A register with the value in all cells, under the first stamp for the count.
    pub fn make(kind: BankKind, stations: u8, count: u32, value: u32) -> Result<Self, Refusal> {
        let start = Record { stamp: Stamp::first(count), value };
        let bank = Bank::filled(kind, stations, start)?;
        Ok(Self { bank, start, journal: Vec::with_capacity(JOURNAL_LINES), open: Each::default(), moment: 0 })
    }

    pub fn stations(&self) -> u8 {
        self.bank.stations()
    }

    /// The starting record.
    pub fn start(&self) -> Record {
        self.start
    }

    /// The lines in use.
    pub fn journal(&self) -> &[Line] {
        &self.journal
    }

    /// How many steps the open operation of a station has taken, `None` if it is idle.
    pub fn progress(&self, station: u8) -> Option<u8> {
        self.bank.known(station).ok()?;
        self.open[index(station)].map(|open| open.progress)
    }

    pub fn open_write(&mut self, station: u8, value: u32) -> Result<(), Refusal> {
        self.open(Kind::Write, station, Record { value, ..self.start })
    }

    pub fn open_read(&mut self, station: u8) -> Result<(), Refusal> {
        self.open(Kind::Read, station, self.start)
    }

    fn open(&mut self, kind: Kind, station: u8, record: Record) -> Result<(), Refusal> {
        self.bank.known(station)?;
        if self.open[index(station)].is_some() {
            return Err(Refusal::Busy);
        }
        if self.journal.len() == JOURNAL_LINES {
            return Err(Refusal::JournalFull);
        }
        self.moment += 1;
        self.open[index(station)] = Some(Open { line: self.journal.len(), progress: 0 });
        self.journal.push(Line { kind, station, state: State::Collecting, record, opened: self.moment, ended: 0 });
        Ok(())
    }

    /// Takes the next step of a station's open operation: first it reads the cells (1, s) to (n, s), one a step, then
    /// it starts and finishes the cells (s, 1) to (s, n), two steps each. The last step answers the record.
    pub fn step(&mut self, station: u8) -> Result<Option<Record>, Refusal> {
        self.bank.known(station)?;
        let row = &mut self.open[index(station)];
        let Some(Open { line, progress }) = row else { return Err(Refusal::Idle) };
        let line = &mut self.journal[*line];
        let stations = self.bank.stations();

        // What the step does to its cell. If that is refused, nothing has changed.
        if *progress < stations {
            line.meet(self.bank.read(*progress + 1, station)?);
        } else if (*progress - stations) % 2 == 1 {
            self.bank.finish(station)?;
        } else {
            self.bank.start(station, (*progress - stations) / 2 + 1, line.record)?;
        }
        self.moment += 1;
        *progress += 1;

        // What the step leads to.
        if *progress == stations {
            let Some(stamp) = line.final_stamp() else {
                line.end(State::Spent, self.moment);
                *row = None;
                return Err(Refusal::Spent);
            };
            line.record.stamp = stamp;
            line.state = State::Spreading;
        } else if *progress == 3 * stations {
            line.end(State::Done, self.moment);
            *row = None;
            return Ok(Some(line.record));
        }
        Ok(None)
    }

    pub fn mark(&mut self, writer: u8, reader: u8, reachable: bool) -> Result<(), Refusal> {
        self.bank.mark(writer, reader, reachable)
    }
}
