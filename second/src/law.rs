//! The law of the stamps, looked for in a journal alone.

use crate::cells::Record;
use crate::register::{Kind, Line, State};

/// A line of an operation that has its stamp.
fn stamped(line: &&Line) -> bool {
    matches!(line.state, State::Spreading | State::Done)
}

/// Whether an operation that was opened after another had ended has a stamp that is not smaller, and a write's is greater.
fn in_order(before: &Line, after: &Line) -> bool {
    let ended_first = before.state == State::Done && before.ended < after.opened;
    let (old, new) = (before.record.stamp, after.record.stamp);
    !ended_first || old < new || (old == new && after.kind == Kind::Read)
}

/// Whether two operations with one stamp are of one write: they have one value, and not both are writes.
fn of_one_write(one: &Line, other: &Line) -> bool {
    one.record.stamp != other.record.stamp
        || (one.record.value == other.record.value && (one.kind, other.kind) != (Kind::Write, Kind::Write))
}

/// Whether a read's record is the starting one or that of a stamped write.
fn backed(line: &Line, start: Record, journal: &[Line]) -> bool {
    let mut writes = journal.iter().filter(stamped).filter(|write| write.kind == Kind::Write);
    line.kind == Kind::Write || line.record == start || writes.any(|write| write.record == line.record)
}

/// Whether a journal of a register with this starting record keeps the law.
pub fn kept(start: Record, journal: &[Line]) -> bool {
    let lines = || journal.iter().filter(stamped);
    lines().all(|line| line.record.stamp >= start.stamp && backed(line, start, journal))
        && lines()
            .enumerate()
            .all(|(at, after)| lines().take(at).all(|before| in_order(before, after) && of_one_write(before, after)))
}

#[cfg(test)]
mod tests {
    use super::*;
    use crate::cells::Stamp;

    const START: Record = Record { stamp: Stamp { count: 0, owner: 0 }, value: 7 };

    fn line(kind: Kind, station: u8, stamp: (u32, u8), value: u32, opened: u64, ended: u64) -> Line {
        let record = Record { stamp: Stamp { count: stamp.0, owner: stamp.1 }, value };
        let state = if ended == 0 { State::Spreading } else { State::Done };
        Line { kind, station, state, record, opened, ended }
    }

    #[test]
    fn a_kept_law() {
        let write = || line(Kind::Write, 1, (1, 1), 9, 1, 0);
        assert!(kept(START, &[write(), line(Kind::Read, 2, (1, 1), 9, 2, 8), line(Kind::Read, 3, (1, 1), 9, 9, 15)]));
        assert!(kept(START, &[write(), line(Kind::Read, 2, (1, 1), 9, 2, 8), line(Kind::Read, 3, (0, 0), 7, 7, 15)]));
    }

    /// The new value is read and afterwards the old one; a later write ties; a value that nobody wrote.
    #[test]
    fn a_broken_law() {
        let write = || line(Kind::Write, 1, (1, 1), 9, 1, 0);
        assert!(!kept(START, &[write(), line(Kind::Read, 2, (1, 1), 9, 2, 8), line(Kind::Read, 3, (0, 0), 7, 9, 15)]));
        assert!(!kept(
            START,
            &[
                line(Kind::Write, 1, (1, 1), 9, 1, 5),
                line(Kind::Write, 2, (1, 2), 8, 6, 9),
                line(Kind::Read, 1, (1, 1), 9, 10, 15)
            ]
        ));
        assert!(!kept(START, &[line(Kind::Write, 1, (1, 1), 9, 1, 5), line(Kind::Write, 1, (1, 1), 9, 6, 9)]));
        assert!(!kept(START, &[write(), line(Kind::Read, 2, (1, 1), 8, 2, 8)]));
        assert!(!kept(START, &[line(Kind::Read, 2, (0, 0), 8, 2, 8)]));
    }
}
