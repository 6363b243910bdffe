//! The longest files, for measuring time: each as large as the programs read.

use second::account::LIMIT;

use crate::script::Script;

/// 16 stations step in turn and open the next operation when one ends: 512 operations, and refused steps behind them.
fn steps() -> Script {
    let mut script = Script::default();
    script.make(0, 16, 0, 7);
    let mut opened = 0;
    while script.size() + 6 <= LIMIT {
        for station in 1..=16 {
            if script.progress(station).is_some() || opened == 512 {
                script.step(station);
            } else if opened % 2 == 0 {
                script.write(station, opened);
                opened += 1;
            } else {
                script.read(station);
                opened += 1;
            }
        }
    }
    script
}

/// Lists of a journal with so many lines, which are spent writes: these take the fewest bytes.
fn lists(lines: u32) -> Script {
    let mut script = Script::default();
    script.make(0, 1, u32::MAX, 7);
    for value in 0..lines {
        script.write(1, value);
        script.step(1);
    }
    while script.size() < LIMIT {
        script.list();
    }
    script
}

/// The file of a name, if there is one.
pub fn file(name: &str) -> Option<Vec<u8>> {
    let mut bytes = match name {
        "empty" => Vec::new(),
        "steps" => steps().into_bytes(),
        "lists-of-0" => lists(0).into_bytes(),
        "lists-of-16" => lists(16).into_bytes(),
        "lists-of-512" => lists(512).into_bytes(),
        _ => return None,
    };
    bytes.truncate(LIMIT);
    Some(bytes)
}
