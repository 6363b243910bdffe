//! Reading commands, carrying them out, and the account of a command file.

use std::io::{self, Write};

use crate::cells::{BankKind, Record, Refusal};
use crate::register::Register;

/// So many bytes of a file are played; what follows is not looked at.
pub const LIMIT: usize = 65_536;

/// A command with its operands. The bank kind of a make is any byte here; carrying it out tells whether it is known.
#[derive(Clone, Copy, Debug, PartialEq, Eq)]
pub enum Command {
    Make { kind: u8, stations: u8, count: u32, value: u32 },
    Write { station: u8, value: u32 },
    Read { station: u8 },
    Step { station: u8 },
    Mark { writer: u8, reader: u8, up: bool },
    List,
}

/// The command at the front of the bytes and what stands behind it, or `None` at the end.
pub fn decode(bytes: &[u8]) -> Result<Option<(Command, &[u8])>, Refusal> {
    let Some((byte, rest)) = bytes.split_first() else { return Ok(None) };
    Ok(Some(match byte {
        0x01 => {
            let (&[kind, stations, c0, c1, c2, c3, v0, v1, v2, v3], rest) = operands(rest)?;
            let (count, value) = (u32::from_be_bytes([c0, c1, c2, c3]), u32::from_be_bytes([v0, v1, v2, v3]));
            (Command::Make { kind, stations, count, value }, rest)
        }
        0x02 => {
            let (&[station, v0, v1, v2, v3], rest) = operands(rest)?;
            (Command::Write { station, value: u32::from_be_bytes([v0, v1, v2, v3]) }, rest)
        }
        0x03 => {
            let (&[station], rest) = operands(rest)?;
            (Command::Read { station }, rest)
        }
        0x04 => {
            let (&[station], rest) = operands(rest)?;
            (Command::Step { station }, rest)
        }
        0x05 | 0x06 => {
            let (&[writer, reader], rest) = operands(rest)?;
            (Command::Mark { writer, reader, up: *byte == 0x06 }, rest)
        }
        0x07 => (Command::List, rest),
        _ => return Err(Refusal::UnknownByte),
    }))
}

/// The operand bytes of a command and what stands behind them.
fn operands<const N: usize>(bytes: &[u8]) -> Result<(&[u8; N], &[u8]), Refusal> {
    bytes.split_first_chunk().ok_or(Refusal::CutShort)
}

#[derive(Clone, Copy, Debug, PartialEq, Eq)]
pub enum Outcome {
    /// Accepted, and neither the last step of an operation nor a list.
    Ok,
    /// The last step of an operation.
    Done(Record),
    /// A list: the lines are those of the register's journal.
    Lines,
    No(Refusal),
}

/// Carries commands out. The first make that is accepted makes the register, the others are calls of it.
#[derive(Default)]
pub struct Player {
    register: Option<Register>,
}

impl Player {
    pub fn register(&self) -> Option<&Register> {
        self.register.as_ref()
    }

    pub fn carry_out(&mut self, command: Command) -> Outcome {
        self.call(command).unwrap_or_else(Outcome::No)
    }

    fn call(&mut self, command: Command) -> Result<Outcome, Refusal> {
        match command {
            Command::Make { kind, stations, count, value } => self.make(kind, stations, count, value)?,
            Command::Write { station, value } => self.made()?.open_write(station, value)?,
            Command::Read { station } => self.made()?.open_read(station)?,
            Command::Step { station } => {
                if let Some(record) = self.made()?.step(station)? {
                    return Ok(Outcome::Done(record));
                }
            }
            Command::Mark { writer, reader, up } => self.made()?.mark(writer, reader, up)?,
            Command::List => {
                self.made()?;
                return Ok(Outcome::Lines);
            }
        }
        Ok(Outcome::Ok)
    }

    fn made(&mut self) -> Result<&mut Register, Refusal> {
        self.register.as_mut().ok_or(Refusal::NoRegister)
    }

    fn make(&mut self, kind: u8, stations: u8, count: u32, value: u32) -> Result<(), Refusal> {
        if self.register.is_some() {
            return Err(Refusal::AlreadyMade);
        }
        let kind = match kind {
            0x00 => BankKind::Board,
            0x01 => BankKind::Post,
            _ => return Err(Refusal::UnknownByte),
        };
        self.register = Some(Register::make(kind, stations, count, value)?);
        Ok(())
    }
}

/// Plays a command file: prints a line for each command, its number from 1 and its outcome, and tells the outcome.
pub fn play(file: &[u8], out: &mut impl Write, mut tell: impl FnMut(Outcome)) -> io::Result<Player> {
    let mut player = Player::default();
    let mut rest = &file[..file.len().min(LIMIT)];
    let mut number = 0;
    loop {
        let outcome = match decode(rest) {
            Ok(None) => return Ok(player),
            Ok(Some((command, behind))) => {
                rest = behind;
                player.carry_out(command)
            }
            Err(refusal) => {
                // Nothing behind an unknown or cut command is read.
                rest = &[];
                Outcome::No(refusal)
            }
        };
        number += 1;
        tell(outcome);
        match outcome {
            Outcome::Ok => writeln!(out, "{number} ok")?,
            Outcome::Done(Record { stamp, value }) => writeln!(out, "{number} done {stamp} {value}")?,
            Outcome::Lines => {
                let lines = player.register().map_or(&[][..], Register::journal);
                writeln!(out, "{number} lines {}", lines.len())?;
                for line in lines {
                    writeln!(out, "{line}")?;
                }
            }
            Outcome::No(refusal) => writeln!(out, "{number} no {refusal}")?,
        }
    }
}
