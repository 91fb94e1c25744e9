//! The worked example of document 01, and what the player calls bad.

use cyw43_oracle::player::{Options, Print, Rules, play};

const INPUT: &str = "F000000E 0 16 20000000 20 60000000 40000000 0 0 40000000 0 0 10000020 \
    60000000 20000000 3900 3000001C 0 FFE3001C 0C000000 200 2 0 10002 0";

const OUTPUT: &str = "14 0 0 0 1 2 0 1 15\n20000000\n6000001c\nffe3001c\n0c000000\n00000000\n\
    00000002\n00000000\n00010002\n00000000\n40000000\n40000000\n10000000\n80000020\n20000000\n\
    3000001c\n";

fn bytes(hex: &str) -> Vec<u8> {
    hex.split_whitespace().flat_map(|w| u32::from_str_radix(w, 16).unwrap().to_le_bytes()).collect()
}

fn plain(input: &[u8]) -> String {
    play(input, Options { print: Print::Plain, session: false, rules: Rules::Unsaid })
}

#[test]
fn worked_example() {
    assert_eq!(plain(&bytes(INPUT)), OUTPUT);
}

#[test]
fn empty_input_prints_nothing() {
    assert_eq!(plain(&[]), "");
}

#[test]
fn bad_comes_in_its_turn() {
    let mut input = bytes(INPUT);
    input.push(0);
    assert_eq!(plain(&input), format!("{OUTPUT}bad\n"));
}

#[test]
fn each_limit_of_the_input() {
    for bad in [
        "F0000000 0 0",
        "F000000F 0 0",
        "E0000001 0 0",
        "F0000006",
        "F0000006 0",
        "F0000006 801",
        "F0000006 1",
        "F0000006 0 1001",
        "F0000006 0 1",
        "F0000008 4 801 0",
    ] {
        assert_eq!(plain(&bytes(bad)), "bad\n", "{bad}");
    }
    assert_eq!(plain(&bytes("F0000006 0 0")), "6 8 0 0 0 1 0 0 1\n10000000\n");
    assert_eq!(plain(&bytes("F0000008 4 800 0")), "8 5 0 0 0 1 0 0 0\n");
    assert_eq!(plain(&bytes("F0000008 8 801 801 0")), "8 1 0 0 0 1 0 0 0\n");
    assert_eq!(plain(&bytes("F0000008 3 801 0")), "8 1 0 0 0 1 0 0 0\n");
}
