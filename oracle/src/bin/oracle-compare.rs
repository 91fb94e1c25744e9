//! oracle-compare [--numbers] PORT RUST: compares two texts of the same sessions, the port's and the Rust's with `--rules`, by the
//! rules of `rules.rs`. Says how many calls were compared and by which rules, and what differs; the exit status is then 1.

use std::{env, fs, process::exit};

use cyw43_oracle::compared::compare;

fn read(path: &str) -> String {
    fs::read_to_string(path).unwrap_or_else(|e| {
        eprintln!("oracle-compare: {path}: {e}");
        exit(2)
    })
}

fn main() {
    let mut args: Vec<_> = env::args().skip(1).collect();
    let numbers = args.first().is_some_and(|arg| arg == "--numbers");
    args.drain(..usize::from(numbers));
    let [port, rust] = &args[..] else {
        eprintln!("usage: oracle-compare [--numbers] PORT RUST   (two files)");
        exit(2)
    };
    let found = compare(&read(port), &read(rust), numbers);
    println!("{found}");
    exit(i32::from(!found.different.is_empty()))
}
