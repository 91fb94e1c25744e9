//! oracle-player [--full | --hash | --numbers] [--session] [--rules | --instead]: plays standard input on
//! the Rust driver.

use std::io::{Read, Write, stdin, stdout};

use cyw43_oracle::player::{Options, Print, Rules, play};

fn main() {
    let mut options = Options { print: Print::Plain, session: false, rules: Rules::Unsaid };
    for arg in std::env::args().skip(1) {
        match arg.as_str() {
            "--full" => options.print = Print::Full,
            "--hash" => options.print = Print::Hashed,
            "--numbers" => options.print = Print::Numbers,
            "--session" => options.session = true,
            "--rules" => options.rules = Rules::Named,
            "--instead" => options.rules = Rules::Followed,
            _ => {
                eprintln!(
                    "usage: oracle-player [--full | --hash | --numbers] [--session] [--rules | --instead] < input"
                );
                std::process::exit(2);
            }
        }
    }
    let mut input = Vec::new();
    stdin().read_to_end(&mut input).expect("standard input");
    stdout().write_all(play(&input, options).as_bytes()).expect("standard output");
}
