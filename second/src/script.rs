//! A command file in the making: its bytes, and the register that they have led to so far.

use second::account::{Command, Outcome, Player};
use second::register::Register;

fn encode(command: Command, bytes: &mut Vec<u8>) {
    match command {
        Command::Make { kind, stations, count, value } => {
            bytes.extend([1, kind, stations]);
            bytes.extend(count.to_be_bytes());
            bytes.extend(value.to_be_bytes());
        }
        Command::Write { station, value } => {
            bytes.extend([2, station]);
            bytes.extend(value.to_be_bytes());
        }
        Command::Read { station } => bytes.extend([3, station]),
        Command::Step { station } => bytes.extend([4, station]),
        Command::Mark { writer, reader, up: false } => bytes.extend([5, writer, reader]),
        Command::Mark { writer, reader, up: true } => bytes.extend([6, writer, reader]),
        Command::List => bytes.push(7),
    }
}

#[derive(Default)]
pub struct Script {
    bytes: Vec<u8>,
    player: Player,
}

impl Script {
    /// Adds a command and answers what it gives.
    pub fn push(&mut self, command: Command) -> Outcome {
        encode(command, &mut self.bytes);
        self.player.carry_out(command)
    }

    pub fn make(&mut self, kind: u8, stations: u8, count: u32, value: u32) -> Outcome {
        self.push(Command::Make { kind, stations, count, value })
    }

    pub fn write(&mut self, station: u8, value: u32) -> Outcome {
        self.push(Command::Write { station, value })
    }

    pub fn read(&mut self, station: u8) -> Outcome {
        self.push(Command::Read { station })
    }

    pub fn step(&mut self, station: u8) -> Outcome {
        self.push(Command::Step { station })
    }

    pub fn steps(&mut self, station: u8, number: usize) {
        for _ in 0..number {
            self.step(station);
        }
    }

    pub fn mark(&mut self, writer: u8, reader: u8, up: bool) -> Outcome {
        self.push(Command::Mark { writer, reader, up })
    }

    pub fn list(&mut self) -> Outcome {
        self.push(Command::List)
    }

    pub fn size(&self) -> usize {
        self.bytes.len()
    }

    pub fn register(&self) -> Option<&Register> {
        self.player.register()
    }

    /// The steps that a station's open operation has taken, if it has one.
    pub fn progress(&self, station: u8) -> Option<u8> {
        self.register()?.progress(station)
    }

    pub fn into_bytes(self) -> Vec<u8> {
        self.bytes
    }
}
