//! Sessions are a function of their seed, and their files hold all of them.

use cyw43_oracle::{
    Oracle,
    player::{ANEW, Options, Print, Rules, play},
};
use sessions::{Session, generate};

fn played(input: &[u8], print: Print, session: bool) -> String {
    play(input, Options { print, session, rules: Rules::Unsaid })
}

#[test]
fn the_same_seed_gives_the_same_session() {
    for seed in 0..50 {
        assert_eq!(generate(seed, &mut |_, _, _| {}), generate(seed, &mut |_, _, _| {}));
    }
}

#[test]
fn a_file_is_read_back() {
    for seed in 0..50 {
        let session = generate(seed, &mut |_, _, _| {});
        assert_eq!(Session::read(&session.file()), Some(session));
    }
}

/// Played from the recordings, calls end as they did while their answers were made.
#[test]
fn played_again() {
    for seed in 0..200 {
        let mut results = Vec::new();
        let session = generate(seed, &mut |_, _, result| results.push(result.clone()));
        let mut oracle = Oracle::new();
        for (step, first) in session.steps.iter().zip(results) {
            assert_eq!(step.play(&mut oracle).0, first, "seed {seed}");
        }
    }
}

/// The player takes every session's input.
#[test]
fn the_player_takes_them() {
    for seed in 0..200 {
        let session = generate(seed, &mut |_, _, _| {});
        assert!(!played(&session.input(), Print::Plain, false).ends_with("bad\n"), "seed {seed}");
        assert!(!played(&session.file(), Print::Hashed, true).ends_with("bad\n"), "seed {seed}");
    }
}

/// Sessions that stand one after the other leave what each leaves alone.
#[test]
fn one_after_the_other() {
    let (mut together, mut alone) = (Vec::new(), String::new());
    for seed in 0..50 {
        let file = generate(seed, &mut |_, _, _| {}).file();
        together.extend(ANEW.to_le_bytes());
        together.extend(&file);
        alone += &played(&file, Print::Numbers, true);
    }
    assert!(played(&together, Print::Numbers, true) == alone);
}
