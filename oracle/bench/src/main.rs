//! bench [--short] [INPUT...]: times the proved driver and the unchanged Rust on the same calls and recordings, and measures how
//! deep a call of the proved driver goes into the stack, on the same calls and on those of the player's inputs. Times the read
//! routine and the one before it, alone.

mod cases;
mod port;
mod radio;
mod reads;
mod stack;

use std::{
    fs,
    hint::black_box,
    time::{Duration, Instant},
};

use cyw43_oracle::{
    Oracle,
    call::{Call, NAMES},
    player::Input,
};

use cases::{Case, Prepared, cases, same};
use port::Port;

/// The greatest depth that is allowed.
const DEEPEST: usize = 24 * 1024;

#[inline(never)]
fn play_port(port: &mut Port, case: &Prepared, out: &mut [u8]) {
    for _ in 0..case.case.batch {
        for (call, words) in &case.calls {
            black_box(port.call(call, &case.words[words.clone()], out));
        }
    }
}

#[inline(never)]
fn play_rust(rust: &mut Oracle, case: &Prepared, out: &mut [u8]) {
    for _ in 0..case.case.batch {
        for (call, words) in &case.calls {
            tape::rewind(words);
            black_box(rust.plain_call(call, out));
        }
    }
}

/// A batch on both, compared after each call.
fn compare(case: &Prepared) {
    let (mut rust, mut port) = (case.case.rust.clone(), case.case.port.clone());
    let (mut out, mut out2) = ([0; 2048], [0; 2048]);
    tape::load(case.tape());
    for _ in 0..case.case.batch {
        for (call, words) in &case.calls {
            tape::rewind(words);
            let (refusal, value) = rust.plain_call(call, &mut out);
            let refusal2 = port.call(call, &case.words[words.clone()], &mut out2);
            let (refusals, values) = ((refusal, refusal2), (value, port.value()));
            assert_eq!(refusal, 0, "{}: refused", case.case.name);
            tape::left(|log, _| {
                same(case.case.name, refusals, values, (log, port.log()), &rust, &port)
            });
            assert_eq!(out, out2, "{}: outputs", case.case.name);
        }
    }
    tape::take();
}

fn median(mut numbers: Vec<f64>) -> f64 {
    numbers.sort_by(f64::total_cmp);
    numbers[numbers.len() / 2]
}

struct Times {
    port: f64,
    rust: f64,
    ratio: f64,
    least: f64,
    most: f64,
}

/// Rounds of a batch each, in turn; the medians over the repeats.
fn time(case: &Prepared, repeats: usize, span: Duration) -> Times {
    let (mut rust, mut port) = (case.case.rust.clone(), case.case.port.clone());
    let mut out = [0; 2048];
    tape::load(case.tape());
    let mut round = |times: &mut (Duration, Duration)| {
        port.restore(&case.case.port);
        let start = Instant::now();
        play_port(&mut port, case, &mut out);
        times.0 += start.elapsed();
        rust.restore(&case.case.rust);
        let start = Instant::now();
        play_rust(&mut rust, case, &mut out);
        times.1 += start.elapsed();
    };
    let mut each = Vec::new();
    for _ in 0..repeats + 1 {
        let mut times = (Duration::ZERO, Duration::ZERO);
        let mut rounds = 0;
        while times.0 + times.1 < span {
            round(&mut times);
            rounds += 1;
        }
        let calls = f64::from(rounds) * case.case.batch as f64;
        each.push((times.0.as_nanos() as f64 / calls, times.1.as_nanos() as f64 / calls));
    }
    tape::take();
    // The first one warms up.
    let each = &each[1..];
    let ratios: Vec<_> = each.iter().map(|t| t.0 / t.1).collect();
    Times {
        port: median(each.iter().map(|t| t.0).collect()),
        rust: median(each.iter().map(|t| t.1).collect()),
        least: ratios.iter().copied().fold(f64::INFINITY, f64::min),
        most: ratios.iter().copied().fold(0.0, f64::max),
        ratio: median(ratios),
    }
}

/// The greatest depths of the case's calls, of the port and of the Rust.
fn case_depth(case: &Prepared) -> (usize, usize) {
    let (mut rust, mut port) = (case.case.rust.clone(), case.case.port.clone());
    let mut out = [0; 2048];
    tape::load(case.tape());
    let mut deepest = (0, 0);
    for (call, words) in &case.calls {
        let (_, depth) =
            stack::depth(|| black_box(port.call(call, &case.words[words.clone()], &mut out)));
        deepest.0 = depth.max(deepest.0);
        tape::rewind(words);
        let (_, depth) = stack::depth(|| black_box(rust.plain_call(call, &mut out)));
        deepest.1 = depth.max(deepest.1);
    }
    tape::take();
    deepest
}

/// The greatest depth of each call of the player's input.
fn input_depths(input: &[u8], deepest: &mut [usize; 15]) {
    let mut port = Port::new();
    let mut input = Input(input);
    let mut out = [0; 2048];
    while let Some(played) = input.call() {
        if let Some(call) = Call::read(played.call, &played.args) {
            let (_, depth) =
                stack::depth(|| black_box(port.call(&call, &played.recording, &mut out)));
            let most = &mut deepest[played.call as usize];
            *most = depth.max(*most);
        }
    }
}

fn usage() -> ! {
    eprintln!("usage: bench [--short] [INPUT...]");
    std::process::exit(2);
}

fn main() {
    let (mut short, mut inputs) = (false, Vec::new());
    for arg in std::env::args().skip(1) {
        match arg.as_str() {
            "--short" => short = true,
            _ if arg.starts_with('-') => usage(),
            _ => inputs.push(fs::read(&arg).unwrap_or_else(|e| panic!("{arg}: {e}"))),
        }
    }
    let (repeats, span) =
        if short { (5, Duration::from_millis(20)) } else { (21, Duration::from_millis(200)) };

    let cases: Vec<Case> = cases();
    let prepared: Vec<_> = cases.iter().map(Prepared::new).collect();
    println!(
        "{:<30} {:>5} {:>10} {:>10} {:>7}   {:<13}",
        "ns", "calls", "port", "Rust", "ratio", "least, most"
    );
    for case in &prepared {
        compare(case);
        let t = time(case, repeats, span);
        println!(
            "{:<30} {:>5} {:>10.1} {:>10.1} {:>7.2}   {:.2}, {:.2}",
            case.case.name,
            case.calls.len(),
            t.port,
            t.rust,
            t.ratio,
            t.least,
            t.most
        );
    }

    reads::compare();
    reads::print(short);

    let deepest = stack::on_known_stack(|| depths(&inputs));
    if deepest > DEEPEST {
        eprintln!("bench: a call goes {deepest} bytes deep, above {DEEPEST}");
        std::process::exit(1);
    }
}

/// Prints the greatest depths; gives the port's.
fn depths(inputs: &[Vec<u8>]) -> usize {
    println!("\n{:<30} {:>5} {:>10} {:>10}", "stack, bytes", "", "port", "Rust");
    let mut greatest = 0;
    let cases = cases();
    for case in cases.iter().map(Prepared::new) {
        let (port, rust) = case_depth(&case);
        println!("{:<30} {:>5} {port:>10} {rust:>10}", case.case.name, "");
        greatest = port.max(greatest);
    }
    let mut deepest = [0; 15];
    inputs.iter().for_each(|input| input_depths(input, &mut deepest));
    for (name, depth) in NAMES.iter().zip(deepest).filter(|d| d.1 > 0) {
        println!("{name:<30} {:>5} {depth:>10}", "");
        greatest = depth.max(greatest);
    }
    println!("{:<30} {:>5} {greatest:>10} {:>10} at most {DEEPEST}", "greatest", "", "");
    greatest
}
