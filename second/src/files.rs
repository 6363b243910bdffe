//! The files of a trial: some written out, the others from seeds.

use second::account::LIMIT;

use crate::random::Random;
use crate::runs::{prelude, run, Plan};
use crate::script::Script;

fn written(write: impl FnOnce(&mut Script)) -> Vec<u8> {
    let mut script = Script::default();
    write(&mut script);
    script.into_bytes()
}

/// A make alone.
fn made(kind: u8, stations: u8) -> Vec<u8> {
    written(|script| {
        script.make(kind, stations, 0, 7);
    })
}

/// A write of the first and of the last station, each with a read of the other behind it, and a list.
fn in_turn(kind: u8, stations: u8, count: u32) -> Vec<u8> {
    written(|script| {
        script.make(kind, stations, count, 7);
        for station in [1, stations] {
            script.write(station, 100 + u32::from(station));
            script.steps(station, 3 * usize::from(stations));
            script.read(stations + 1 - station);
            script.steps(stations + 1 - station, 3 * usize::from(stations));
        }
        script.list();
    })
}

/// A journal filled to its last line, and opens behind that, of an idle and of a busy station.
fn full(kind: u8, count: u32) -> Vec<u8> {
    written(|script| {
        script.make(kind, 2, count, 7);
        script.write(2, 1);
        script.step(2);
        for value in 0..511 {
            script.write(1, value);
            script.steps(1, if count == u32::MAX { 2 } else { 6 });
        }
        script.read(1);
        script.write(1, 0);
        script.read(2);
        script.write(3, 0);
        script.step(2);
        script.list();
    })
}

/// Files of makes, which are long and tell little: the last command ends at the limit; the same with more behind it; the
/// limit cuts the last command.
fn at_limit() -> [Vec<u8>; 3] {
    let makes = |script: &mut Script, number| {
        for value in 0..number {
            script.make(0, 1, 0, value);
        }
    };
    let exact = written(|script| {
        makes(script, 5957);
        script.write(1, 9);
        script.mark(1, 1, false);
    });
    let over = [&exact[..], &[7, 4, 1]].concat();
    [exact, over, written(|script| makes(script, 5958))]
}

/// The files that every trial begins with.
pub fn fixed() -> Vec<Vec<u8>> {
    let one = in_turn(0, 1, 0);
    let mut files: Vec<Vec<u8>> = (0..=one.len()).map(|length| one[..length].to_vec()).collect();
    files.extend([0, 1, 2, 3, 4, 5, 6, 7, 8, 255].map(|byte| vec![byte]));
    for kind in [0, 1, 2, 255] {
        files.extend([0, 1, 16, 17, 255].map(|stations| made(kind, stations)));
    }
    for kind in [0, 1] {
        files.extend((1..=16).map(|stations| in_turn(kind, stations, 0)));
        files.extend((0..4).map(|below| in_turn(kind, 3, u32::MAX - below)));
        files.push(full(kind, 0));
    }
    files.push(full(0, u32::MAX));
    files.extend(at_limit());
    files
}

/// A register of 1 to 16 stations; small ones come more often.
fn stations(random: &mut Random) -> u8 {
    let most = random.pick(&[2, 3, 4, 8, 16]);
    random.between(1, most) as u8
}

fn traffic(random: &mut Random, opens: usize) -> Vec<u8> {
    let n = stations(random);
    let plan = Plan::new(random, n, opens);
    written(|script| {
        if random.chance(200) {
            prelude(random, script);
        }
        run(random, script, &plan);
    })
}

/// Changes, leaves out, doubles or cuts a few bytes of a run.
fn damaged(random: &mut Random, opens: usize) -> Vec<u8> {
    let mut file = traffic(random, opens);
    for _ in 0..random.between(1, 4) {
        if file.is_empty() {
            break;
        }
        let at = random.below(file.len());
        match random.below(6) {
            0 => file[at] = random.byte(),
            1 => file[at] = random.below(9) as u8,
            2 => drop(file.remove(at)),
            3 => file.insert(at, random.below(20) as u8),
            4 => file.extend_from_within(at.saturating_sub(40)..at),
            _ => file.truncate(at),
        }
    }
    file
}

/// Bytes without a plan; the lower they are, the longer they are read as commands.
fn noise(random: &mut Random) -> Vec<u8> {
    let most = random.pick(&[8, 9, 9, 20, 256]);
    let length = random.below(300);
    let mut file = match random.below(3) {
        0 => Vec::new(),
        _ => made(random.pick(&[0, 1]), random.between(1, 8) as u8),
    };
    file.extend((0..length).map(|_| random.below(most) as u8));
    file
}

/// A run of 530 opens, which fills the journal unless its size ends it before.
fn long(random: &mut Random) -> Vec<u8> {
    let n = random.pick(&[1, 2, 3, 5, 8, 12, 16]);
    let plan = Plan::new(random, n, 530);
    written(|script| run(random, script, &plan))
}

/// A run with one command over and over behind it, to a size at the limit or beyond.
fn large(random: &mut Random) -> Vec<u8> {
    let mut file = traffic(random, 5);
    let again = random.pick(&[&[4, 1][..], &[7], &[5, 1, 1], &[6, 2, 1], &[2, 1, 0, 0, 0, 9], &[3, 1], &[1; 11]]);
    let extra = random.below(3000);
    let size = LIMIT + random.pick(&[0, 0, 1, 2, 5, extra]) - random.pick(&[0, 0, 1, 4]);
    while file.len() < size {
        file.extend_from_slice(again);
    }
    if random.chance(500) {
        file.truncate(size);
    }
    file
}

/// The file of a seed: mostly runs, also damaged ones and noise; now and then a full journal or a file at the limit.
pub fn seeded(seed: u64) -> Vec<u8> {
    let random = &mut Random::new(seed);
    let most = random.pick(&[3, 8, 20, 40]);
    let opens = random.between(1, most);
    match random.below(400) {
        0 => large(random),
        1..=4 => long(random),
        5..=24 => noise(random),
        25..=84 => damaged(random, opens),
        _ => traffic(random, opens),
    }
}

/// A short file of a seed, for the stored batch.
pub fn short(seed: u64) -> Vec<u8> {
    let random = &mut Random::new(seed);
    let opens = random.between(1, 8);
    match random.below(20) {
        0 | 1 => noise(random),
        2..=5 => damaged(random, opens),
        _ => traffic(random, opens),
    }
}
