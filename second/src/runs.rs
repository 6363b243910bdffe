//! Runs of a register: stations that overlap, lost links, halted stations, and commands that are refused.

use second::account::{Command, Outcome};
use second::cells::Refusal;

use crate::random::Random;
use crate::script::Script;

/// Which station acts next.
#[derive(Clone, Copy)]
enum Order {
    /// Any station.
    Uniform,
    /// The station `from` and those after it, more often the nearer they are.
    Favoured { from: usize },
    /// Mostly the one that acted last.
    Bursts,
    /// One after the other.
    Rounds,
    /// One until its operation has ended.
    Whole,
}

/// What a run is like. Shares are of 1000.
pub struct Plan {
    pub kind: u8,
    pub stations: u8,
    pub count: u32,
    /// Opens before the run is brought to its end.
    pub opens: usize,
    /// The size in bytes from which nothing more is opened.
    pub size: usize,
    writes: usize,
    marks: usize,
    strays: usize,
    lists: usize,
    halts: usize,
    /// Values come from this many small ones; 0: from all.
    values: usize,
    order: Order,
}

const COUNTS: [u32; 10] = [0, 0, 0, 1, 9, 99, 4_294_967_290, 4_294_967_293, 4_294_967_294, 4_294_967_295];

impl Plan {
    pub fn new(random: &mut Random, stations: u8, opens: usize) -> Self {
        let from = random.below(16);
        Plan {
            kind: random.pick(&[0, 1]),
            stations,
            count: if random.chance(100) { random.next() as u32 } else { random.pick(&COUNTS) },
            opens,
            size: 60_000,
            writes: random.pick(&[0, 200, 500, 500, 500, 800, 1000]),
            marks: random.pick(&[0, 0, 10, 50, 200]),
            strays: random.pick(&[0, 0, 10, 50, 300]),
            lists: random.pick(&[0, 0, 0, 10]),
            halts: random.pick(&[0, 0, 0, 5]),
            values: random.pick(&[0, 1, 3, 1000]),
            order: random.pick(&[
                Order::Uniform,
                Order::Uniform,
                Order::Favoured { from },
                Order::Bursts,
                Order::Rounds,
                Order::Whole,
            ]),
        }
    }
}

/// A run that is being written.
struct Run<'a> {
    plan: &'a Plan,
    random: &'a mut Random,
    script: &'a mut Script,
    down: Vec<(u8, u8)>,
    halted: [bool; 17],
    last: u8,
}

impl Run<'_> {
    fn station(&mut self) -> u8 {
        1 + self.random.below(usize::from(self.plan.stations)) as u8
    }

    /// A station number that the register may not know.
    fn any_station(&mut self) -> u8 {
        let known = self.station();
        self.random.pick(&[0, known, known, known, self.plan.stations + 1, 17, 255])
    }

    fn value(&mut self) -> u32 {
        match self.plan.values {
            0 => self.random.next() as u32,
            few => self.random.below(few) as u32,
        }
    }

    fn turn(&mut self) -> u8 {
        let n = usize::from(self.plan.stations);
        let next = match self.plan.order {
            Order::Uniform => self.station(),
            Order::Favoured { from } => {
                let near = (0..3).map(|_| self.random.below(n)).min().unwrap_or(0);
                1 + ((from + near) % n) as u8
            }
            Order::Bursts if self.random.chance(850) => self.last,
            Order::Bursts => self.station(),
            Order::Rounds => self.last % self.plan.stations + 1,
            Order::Whole if self.script.progress(self.last).is_some() && !self.halted[usize::from(self.last)] => {
                self.last
            }
            Order::Whole => self.station(),
        };
        self.last = next;
        next
    }

    fn open(&mut self, station: u8) {
        if self.random.chance(self.plan.writes) {
            let value = self.value();
            self.script.write(station, value);
        } else {
            self.script.read(station);
        }
    }

    /// Takes down a cell, often the one that a station needs next, or brings one up again.
    fn mark(&mut self) {
        if !self.down.is_empty() && self.random.chance(500) {
            let (writer, reader) = self.down.swap_remove(self.random.below(self.down.len()));
            self.script.mark(writer, reader, true);
            return;
        }
        let (station, n) = (self.station(), self.plan.stations);
        let cell = match self.script.progress(station) {
            Some(c) if self.random.chance(600) && c < n => (c + 1, station),
            Some(c) if self.random.chance(600) && c >= n => (station, (c - n) / 2 + 1),
            _ => (station, self.station()),
        };
        self.script.mark(cell.0, cell.1, false);
        self.down.push(cell);
    }

    /// A command that is mostly refused.
    fn stray(&mut self) {
        let (one, other, value) = (self.any_station(), self.any_station(), self.value());
        let kind = self.random.pick(&[0, 1, 2, 255]);
        let up = self.random.chance(800);
        self.script.push(match self.random.below(7) {
            0 => Command::Make { kind, stations: one, count: value, value },
            1 | 2 => Command::Write { station: one, value },
            3 => Command::Read { station: one },
            4 | 5 => Command::Step { station: one },
            _ => Command::Mark { writer: one, reader: other, up },
        });
    }

    /// A step; an unreachable cell that it meets is sometimes brought up at once.
    fn step(&mut self, station: u8, patience: usize) {
        if let Outcome::No(Refusal::Unreachable { writer, reader }) = self.script.step(station) {
            if !self.random.chance(patience) {
                self.script.mark(writer, reader, true);
                self.down.retain(|cell| *cell != (writer, reader));
            }
        }
    }

    fn traffic(&mut self) {
        let mut opens = 0;
        let turns = 100 + self.plan.opens * 9 * usize::from(self.plan.stations);
        for _ in 0..turns {
            if opens == self.plan.opens || self.script.size() > self.plan.size {
                break;
            }
            let station = self.turn();
            if self.random.chance(self.plan.marks) {
                self.mark();
            }
            if self.random.chance(self.plan.strays) {
                self.stray();
            }
            if self.random.chance(self.plan.lists) && opens < 40 {
                self.script.list();
            }
            if self.halted[usize::from(station)] {
                continue;
            }
            self.halted[usize::from(station)] = self.random.chance(self.plan.halts);
            if self.script.progress(station).is_some() {
                self.step(station, 700);
            } else if self.random.chance(700) {
                self.open(station);
                opens += 1;
            }
        }
    }

    /// Lets the stations that have not halted end their operations.
    fn drain(&mut self) {
        let busy = |run: &Self, s: u8| !run.halted[usize::from(s)] && run.script.progress(s).is_some();
        while (1..=self.plan.stations).any(|s| busy(self, s)) && self.script.size() < 66_000 {
            let station = self.turn();
            let station = if busy(self, station) { station } else { self.station() };
            if busy(self, station) {
                self.step(station, 300);
            }
        }
    }
}

/// Commands before the register is made, and makes that are refused.
pub fn prelude(random: &mut Random, script: &mut Script) {
    for _ in 0..random.between(1, 4) {
        let (station, value) = (random.pick(&[0, 1, 16, 17]), random.next() as u32);
        let (kind, stations) = random.pick(&[(2, 3), (255, 0), (2, 17), (0, 0), (1, 0), (0, 17), (1, 17), (0, 255)]);
        script.push(match random.below(9) {
            0 => Command::Write { station, value },
            1 => Command::Read { station },
            2 => Command::Step { station },
            3 => Command::Mark { writer: station, reader: station, up: random.chance(500) },
            4 => Command::List,
            _ => Command::Make { kind, stations, count: value, value },
        });
    }
}

/// Makes a register as planned and runs it; mostly to the end of all operations, and mostly with a list behind it.
pub fn run(random: &mut Random, script: &mut Script, plan: &Plan) {
    let value = random.next() as u32 >> random.pick(&[0, 24, 31]);
    script.make(plan.kind, plan.stations, plan.count, value);
    let ends = random.chance(800);
    let lists = random.chance(900);
    let mut run = Run { plan, random, script, down: Vec::new(), halted: [false; 17], last: 1 };
    run.traffic();
    if ends {
        run.drain();
    }
    if lists {
        run.script.list();
    }
}
