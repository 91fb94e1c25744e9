//! oracle-sessions --seed S --count N [--write FOLDER] [--together FILE] [--compared] [--lines]:
//! makes N sessions, runs them on the oracle twice (answers made as asked for, then played from
//! the recording) and prints what they reached. FOLDER gets two files for each seed: the session
//! with its log capacities, and the player's input. FILE gets all sessions, each after the
//! word that begins a session. With --compared what is written of a session ends with the last call
//! that is compared.

use std::{collections::BTreeMap, fs, io::Write, path::PathBuf, process::exit};

use cyw43_oracle::{CallResult, Oracle, player::ANEW, rules::rules_for};
use sessions::{Session, Step, counts::Counts, generate, shrink};

struct Options {
    seed: u64,
    count: u64,
    write: Option<PathBuf>,
    together: Option<PathBuf>,
    compared: bool,
    lines: bool,
}

fn usage() -> ! {
    eprintln!(
        "usage: oracle-sessions --seed S --count N [--write FOLDER] [--together FILE] [--compared] [--lines]"
    );
    exit(2)
}

fn options() -> Options {
    let mut options =
        Options { seed: 1, count: 100, write: None, together: None, compared: false, lines: false };
    let mut args = std::env::args().skip(1);
    while let Some(arg) = args.next() {
        let mut value = || args.next().unwrap_or_else(|| usage());
        match arg.as_str() {
            "--seed" => options.seed = value().parse().unwrap_or_else(|_| usage()),
            "--count" => options.count = value().parse().unwrap_or_else(|_| usage()),
            "--write" => options.write = Some(value().into()),
            "--together" => options.together = Some(value().into()),
            "--compared" => options.compared = true,
            "--lines" => options.lines = true,
            _ => usage(),
        }
    }
    options
}

/// Plays the session from its recordings; every call must end as it did.
fn replay(seed: u64, session: &Session, results: &[CallResult]) -> Oracle {
    let mut oracle = Oracle::new();
    for (at, (step, first)) in session.steps.iter().zip(results).enumerate() {
        let (again, _) = step.play(&mut oracle);
        assert_eq!(&again, first, "seed {seed}, call {at}: played again it ends otherwise");
    }
    oracle
}

fn main() {
    let options = options();
    let mut counts = Counts::default();
    let mut lines = BTreeMap::<&str, u64>::new();
    let mut panics = BTreeMap::<String, (u64, u64, Session)>::new();

    let mut together = options.together.map(|path| fs::File::create(path).expect("file"));

    for seed in options.seed..options.seed + options.count {
        counts.begin();
        let mut results = Vec::new();
        let mut oracle = Oracle::new();
        let mut after = |oracle: &Oracle, step: &Step, result: &CallResult| {
            counts.add(oracle, step, result);
            results.push(result.clone());
        };
        let mut session = generate::generate_on(&mut oracle, seed, &mut after);
        for (line, n) in results.iter().flat_map(|r| &r.said).filter(|_| options.lines) {
            *lines.entry(line).or_default() += n;
        }

        let again = replay(seed, &session, &results);
        assert_eq!(again.state(), oracle.state(), "seed {seed}: state");
        assert_eq!(again.buffer(), oracle.buffer(), "seed {seed}: buffer");
        assert_eq!(again.records(), oracle.records(), "seed {seed}: scan list");

        if let Some(message) = results.last().and_then(|r| r.panic.clone()) {
            panics.entry(message).or_insert((0, seed, session.clone())).0 += 1;
        }
        let last = results.iter().position(|result| rules_for(result).any(|rule| rule.ends));
        if let Some(last) = last.filter(|_| options.compared) {
            session.steps.truncate(last + 1);
        }
        if let Some(folder) = &options.write {
            fs::create_dir_all(folder).expect("folder");
            fs::write(folder.join(format!("{seed}.session")), session.file()).expect("file");
            fs::write(folder.join(format!("{seed}.input")), session.input()).expect("file");
        }
        if let Some(file) = &mut together {
            file.write_all(&ANEW.to_le_bytes()).expect("file");
            file.write_all(&session.file()).expect("file");
        }
    }

    print!("{counts}");
    for (line, n) in lines {
        println!("line {n:8} {line}");
    }
    println!("other panics: {}", panics.values().map(|p| p.0).sum::<u64>());
    for (message, (n, seed, session)) in panics {
        println!("panic {n} times, first with seed {seed}: {message}");
        for step in shrink::shrink(&session).steps {
            let words: Vec<_> = step.played.words().iter().map(|w| format!("{w:x}")).collect();
            println!("  log {}: {}", step.capacity, words.join(" "));
        }
    }
}
