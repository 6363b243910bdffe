//! Values worked out by hand, as unit tests of the second program.

use crate::account::play;
use crate::cells::Stamp;

/// The account of a file written as hexadecimal text.
fn account(hex: &str) -> String {
    let digits: Vec<u32> = hex.chars().filter_map(|c| c.to_digit(16)).collect();
    let file: Vec<u8> = digits.chunks(2).map(|pair| (pair[0] * 16 + pair[1]) as u8).collect();
    let mut out = Vec::new();
    play(&file, &mut out, |_| ()).expect("a vector takes every text");
    String::from_utf8(out).expect("an account is plain text")
}

fn last_lines(hex: &str, lines: usize) -> Vec<String> {
    let text = account(hex);
    let all: Vec<&str> = text.lines().collect();
    all[all.len() - lines..].iter().map(|line| line.to_string()).collect()
}

#[test]
fn one_station_writes_and_reads() {
    let text = account("01000100000000 00000007 020100000009 0401 0401 0401 0301 0401 0401 0401 07");
    let expected = "1 ok\n2 ok\n3 ok\n4 ok\n5 done 1.1 9\n6 ok\n7 ok\n8 ok\n9 done 1.1 9\n10 lines 2\n\
                    W 1 done 1.1 9 1 4\nR 1 done 1.1 9 5 8\n";
    assert_eq!(text, expected);
}

#[test]
fn stamps_are_ordered_by_count_then_owner() {
    assert_eq!(Stamp::first(0).next(3), Some(Stamp { count: 1, owner: 3 }));
    assert!(Stamp { count: 1, owner: 16 } < Stamp { count: 2, owner: 1 });
    assert!(Stamp { count: 1, owner: 1 } < Stamp { count: 1, owner: 2 });
    assert_eq!(Stamp::first(u32::MAX).next(1), None);
}

#[test]
fn a_write_at_the_greatest_count_is_spent() {
    assert_eq!(
        last_lines("010001 ffffffff 00000007 0201 00000009 0401 07", 3),
        ["3 no 14", "4 lines 1", "W 1 spent 4294967295.0 9 1 2"]
    );
    assert_eq!(
        last_lines("010001 fffffffe 00000007 0201 00000009 0401 07", 3),
        ["3 ok", "4 lines 1", "W 1 spreading 4294967295.1 9 1 0"]
    );
}

/// Station 1 of 2 writes 9 and takes five steps, so that its record for station 2 is open; station 2 then reads.
#[test]
fn a_board_shows_the_open_record_and_a_post_the_settled_one() {
    let rest = "02 00000000 00000007 0201 00000009 0401 0401 0401 0401 0401 0302 0402 0402 07";
    assert_eq!(last_lines(&format!("0100 {rest}"), 1), ["R 2 spreading 1.1 9 7 0"]);
    assert_eq!(last_lines(&format!("0101 {rest}"), 1), ["R 2 spreading 0.0 7 7 0"]);
}

#[test]
fn an_unreachable_cell_stops_a_step_until_it_is_up() {
    assert_eq!(
        last_lines("010002 00000000 00000007 0302 050102 0402 060102 0402", 3),
        ["4 no 15 0 1 2", "5 ok", "6 ok"]
    );
}

#[test]
fn stations_are_numbered_from_1_to_n() {
    assert_eq!(last_lines("010002 00000000 00000007 0303 0302 0300", 3), ["2 no 4", "3 ok", "4 no 4"]);
}

/// The command byte, then 10, then 18 or 19, then the bank kind, then the station count.
#[test]
fn refusals_come_in_their_order() {
    assert_eq!(account("08"), "1 no 9\n");
    assert_eq!(account("0102"), "1 no 10\n");
    assert_eq!(account("0401 0700 07"), "1 no 18\n2 no 18\n3 no 9\n");
    assert_eq!(account("010200 00000000 00000000"), "1 no 9\n");
    assert_eq!(account("010000 00000000 00000000"), "1 no 1\n");
    assert_eq!(last_lines("010010 00000000 00000000 010200 00000000 00000000", 2), ["1 ok", "2 no 19"]);
}
