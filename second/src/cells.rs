//! Stamps, records, refusals, and the two banks at the bottom: the board and the post.

use std::fmt;

/// The most stations that a bank can have.
const MOST: usize = 16;

/// A stamp orders the policies: by count, and where the counts are equal by owner.
#[derive(Clone, Copy, Debug, PartialEq, Eq, PartialOrd, Ord)]
pub struct Stamp {
    pub count: u32,
    /// 0 is nobody, 1 to 16 are stations.
    pub owner: u8,
}

impl Stamp {
    /// The first stamp for a count belongs to nobody.
    pub fn first(count: u32) -> Self {
        Self { count, owner: 0 }
    }

    /// The next stamp for a station, or `None` where this one is spent, and for a station above 16.
    pub fn next(self, station: u8) -> Option<Self> {
        if usize::from(station) > MOST {
            return None;
        }
        let count = self.count.checked_add(1)?;
        Some(Self { count, owner: station })
    }
}

impl fmt::Display for Stamp {
    fn fmt(&self, f: &mut fmt::Formatter<'_>) -> fmt::Result {
        write!(f, "{}.{}", self.count, self.owner)
    }
}

/// What a cell holds: a value under its stamp.
#[derive(Clone, Copy, Debug, PartialEq, Eq)]
pub struct Record {
    pub stamp: Stamp,
    pub value: u32,
}

/// Why a call or a command was turned down. Only the refusals that a command file can meet.
#[derive(Clone, Copy, Debug, PartialEq, Eq)]
pub enum Refusal {
    StationCount,
    UnknownStation,
    UnknownByte,
    CutShort,
    Busy,
    JournalFull,
    Idle,
    Spent,
    Unreachable { writer: u8, reader: u8 },
    NoRegister,
    AlreadyMade,
}

impl Refusal {
    pub fn number(self) -> usize {
        match self {
            Self::StationCount => 1,
            Self::UnknownStation => 4,
            Self::UnknownByte => 9,
            Self::CutShort => 10,
            Self::Busy => 11,
            Self::JournalFull => 12,
            Self::Idle => 13,
            Self::Spent => 14,
            Self::Unreachable { .. } => 15,
            Self::NoRegister => 18,
            Self::AlreadyMade => 19,
        }
    }
}

/// The number; behind 15 also the place of the cell. No layers stand over these banks, so its depth is 0.
impl fmt::Display for Refusal {
    fn fmt(&self, f: &mut fmt::Formatter<'_>) -> fmt::Result {
        write!(f, "{}", self.number())?;
        match self {
            Self::Unreachable { writer, reader } => write!(f, " 0 {writer} {reader}"),
            _ => Ok(()),
        }
    }
}

/// What a read answers while a record is open for its reader: the board that one, the post the settled one.
#[derive(Clone, Copy, Debug, PartialEq, Eq)]
pub enum BankKind {
    Board,
    Post,
}

/// One thing for each station.
pub(crate) type Each<T> = [T; MOST];

/// Where a station's thing stands among those of all stations.
pub(crate) fn index(station: u8) -> usize {
    usize::from(station) - 1
}

/// The cells of all stations. Cell (w, r) is written by station w and read by station r.
#[derive(Clone, Copy)]
pub struct Bank {
    kind: BankKind,
    stations: u8,
    /// By writer and reader: the settled record.
    settled: Each<Each<Record>>,
    /// By writer and reader: whether the cell is reachable.
    reachable: Each<Each<bool>>,
    /// By writer: the open record and its reader.
    open: Each<Option<(u8, Record)>>,
}

impl Bank {
    /// A bank with the record in all cells, nothing open, and all cells reachable.
    pub fn filled(kind: BankKind, stations: u8, record: Record) -> Result<Self, Refusal> {
        if !(1..=MOST).contains(&usize::from(stations)) {
            return Err(Refusal::StationCount);
        }
        Ok(Self {
            kind,
            stations,
            settled: [[record; MOST]; MOST],
            reachable: [[true; MOST]; MOST],
            open: [None; MOST],
        })
    }

    pub fn stations(&self) -> u8 {
        self.stations
    }

    /// Refuses a number that is no station.
    pub fn known(&self, station: u8) -> Result<(), Refusal> {
        if (1..=self.stations).contains(&station) {
            Ok(())
        } else {
            Err(Refusal::UnknownStation)
        }
    }

    /// Refuses a cell that cannot be reached.
    fn reach(&self, writer: u8, reader: u8) -> Result<(), Refusal> {
        if self.reachable[index(writer)][index(reader)] {
            Ok(())
        } else {
            Err(Refusal::Unreachable { writer, reader })
        }
    }

    /// Answers the settled record of the cell, or on a board the open one, where there is one for this reader.
    pub fn read(&mut self, writer: u8, reader: u8) -> Result<Record, Refusal> {
        self.known(writer)?;
        self.known(reader)?;
        self.reach(writer, reader)?;
        match (self.kind, self.open[index(writer)]) {
            (BankKind::Board, Some((to, record))) if to == reader => Ok(record),
            _ => Ok(self.settled[index(writer)][index(reader)]),
        }
    }

    /// Opens a record of the writer for one reader. The register never starts a second one before it has finished the
    /// first.
    pub fn start(&mut self, writer: u8, reader: u8, record: Record) -> Result<(), Refusal> {
        self.known(writer)?;
        self.known(reader)?;
        self.reach(writer, reader)?;
        let before = self.open[index(writer)].replace((reader, record));
        assert!(before.is_none(), "writer {writer} has an open record");
        Ok(())
    }

    /// Settles the open record of the writer. The register never finishes what it has not started.
    pub fn finish(&mut self, writer: u8) -> Result<(), Refusal> {
        self.known(writer)?;
        let (reader, record) = self.open[index(writer)].expect("the writer has an open record");
        self.reach(writer, reader)?;
        self.settled[index(writer)][index(reader)] = record;
        self.open[index(writer)] = None;
        Ok(())
    }

    /// Makes a cell reachable or unreachable.
    pub fn mark(&mut self, writer: u8, reader: u8, reachable: bool) -> Result<(), Refusal> {
        self.known(writer)?;
        self.known(reader)?;
        self.reachable[index(writer)][index(reader)] = reachable;
        Ok(())
    }
}
