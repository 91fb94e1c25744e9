//! Which calls are compared by a rule, and what the comparison then lets pass.

mod common;

use common::{brings, event, exchange, none};
use cyw43_oracle::{
    compared::compare,
    player::{ANEW, LOG, Options, Played, Print, Rules, play},
};

const SCAN: u32 = 2;
const POLL: u32 = 6;
const SCAN_RESULT: u32 = 69;

/// The place of the scan's marks in the line of numbers.
const DONE: usize = 5;
const IN_PROGRESS: usize = 6;

fn call(call: u32, recording: Vec<u32>) -> Played {
    Played { call, args: Vec::new(), recording }
}

/// A poll that hears of a scan, with these bytes of an event.
fn heard(length: u16, status: u32) -> Played {
    let event = event(length, SCAN_RESULT, status, 0);
    call(POLL, [brings(&event[..12 + usize::from(length)]), none().to_vec()].concat())
}

/// The sessions' text, as the Rust leaves it.
fn rust(sessions: &[&[Played]]) -> String {
    text(sessions, Rules::Named)
}

fn text(sessions: &[&[Played]], rules: Rules) -> String {
    let words = sessions.iter().flat_map(|calls| {
        let calls = calls.iter().flat_map(|c| [vec![0xe000_0000 + LOG as u32], c.words()].concat());
        [ANEW].into_iter().chain(calls)
    });
    let input: Vec<u8> = words.flat_map(u32::to_le_bytes).collect();
    play(&input, Options { print: Print::Numbers, session: true, rules })
}

/// The text of a port that leaves the same, but for numbers of some calls: (call from 0 on, place, number).
fn port(rust: &str, others: &[(usize, usize, u64)]) -> String {
    let mut text = String::new();
    let mut calls = 0;
    for line in rust.lines().filter(|l| *l != "session" && !l.starts_with("rule ")) {
        let mut numbers: Vec<String> = line.split_whitespace().map(Into::into).collect();
        if numbers.len() > 9 {
            for (_, place, n) in others.iter().filter(|other| other.0 == calls) {
                numbers[*place] = n.to_string();
            }
            calls += 1;
            text += &(numbers.join(" ") + " \n");
        } else {
            text += &format!("{line}\n");
        }
    }
    text
}

fn scan() -> Played {
    call(SCAN, exchange(false, 2, 1))
}

/// A scan, a network, a failed scan, a poll that hears nothing; then another session.
fn failing() -> String {
    let calls = [scan(), marked(heard(48, 8)), heard(48, 1), call(POLL, vec![0x1000_0000])];
    rust(&[&calls, &[scan()]])
}

/// The same poll where the good-packet mark is set: no interrupt is read.
fn marked(poll: Played) -> Played {
    call(poll.call, poll.recording[2..].to_vec())
}

#[test]
fn which_calls() {
    let ruled = |poll: Played| rust(&[&[poll]]).contains("rule P2");
    for status in [1, 2, 4, 9, 0x0100_0000, u32::MAX] {
        assert!(ruled(heard(48, status)), "status {status}");
    }
    assert!(!ruled(heard(48, 0)));
    assert!(!ruled(heard(48, 8)));
    assert!(!ruled(heard(47, 1)));
    // Its last answer is missing: rolled back.
    let mut cut = heard(48, 1);
    cut.recording.truncate(cut.recording.len() - 2);
    assert!(!ruled(cut));
}

#[test]
fn the_mark_is_left_out() {
    let rust = failing();
    let found = compare(&port(&rust, &[(2, IN_PROGRESS, 0)]), &rust, true);
    assert!(found.different.is_empty(), "{found}");
    assert_eq!((found.sessions, found.calls, found.left), (2, 4, 1));
    assert_eq!((found.rules["P2"].calls, found.rules["P2"].different), (1, 1));
}

/// A port that leaves what the requests say.
#[test]
fn followed() {
    let calls = [scan(), marked(heard(48, 8)), heard(48, 1)];
    let (rust, port) = (rust(&[&calls]), text(&[&calls], Rules::Followed));
    let found = compare(&port, &rust, true);
    assert!(found.different.is_empty(), "{found}");
    assert_eq!((found.calls, found.rules["P2"].different), (3, 1));
}

#[test]
fn what_is_said_instead() {
    let rust = failing();
    let found = compare(&port(&rust, &[]), &rust, true);
    assert_eq!(found.different.len(), 1, "{found}");
    assert_eq!((found.different[0].0, found.different[0].1), (1, 3));
}

/// A scan hears that an earlier one failed, and is answered.
#[test]
fn a_scan_sets_it_again() {
    let answered = exchange(true, 2, 1);
    let event = brings(&event(48, SCAN_RESULT, 1, 0));
    let recording = [&answered[..9], &event[..], &answered[6..9], &answered[9..]].concat();
    let rust = rust(&[&[call(SCAN, recording)]]);
    assert!(rust.starts_with("session\n2 0 0 ") && rust.ends_with("rule P2\n"), "{rust}");
    assert!(compare(&port(&rust, &[]), &rust, true).different.is_empty());
    assert_eq!(compare(&port(&rust, &[(0, IN_PROGRESS, 0)]), &rust, true).different.len(), 1);
}

#[test]
fn all_else_is_compared() {
    let rust = failing();
    let cleared = (2, IN_PROGRESS, 0);
    let noticed = |other| compare(&port(&rust, &[cleared, other]), &rust, true).different.len();
    // The done mark, the list's count and each sum of that call.
    for place in [DONE, 44, 45, 46, 47] {
        assert_eq!(noticed((2, place, 9)), 1, "number {place}");
    }
    // The mark in a call before it, and in another session.
    assert_eq!(noticed((1, IN_PROGRESS, 0)), 1);
    assert_eq!(noticed((4, IN_PROGRESS, 0)), 1);
    // The call after it is not compared.
    assert_eq!(noticed((3, DONE, 9)), 0);
}

#[test]
fn lines_and_length() {
    let rust = failing();
    let ours = port(&rust, &[(2, IN_PROGRESS, 0)]);
    let other =
        |from: &str, to: &str| compare(&ours.replacen(from, to, 1), &rust, true).different.len();
    assert_eq!(other("6000", "6001"), 1);
    assert_eq!(other("2 0 0", "2 0 1"), 1);
    assert_eq!(compare(&ours[..ours.len() - 9], &rust, true).different.len(), 1);
    assert_eq!(compare(&format!("{ours}6 0 0 0 1 1 0 0 0\n"), &rust, true).different.len(), 1);
    assert_eq!(compare("", &rust, true).different.len(), 1);
}
