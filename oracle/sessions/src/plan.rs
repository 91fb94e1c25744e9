//! Which call comes next, and with what arguments.

use cyw43_oracle::{drivers::wlan::cyw43::pio_ctrl::commands, state::State};

use crate::{rng::Rng, temper::Temper};

/// Weights of the calls 1 to 14.
const WEIGHTS: [u64; 14] = [3, 6, 8, 4, 3, 30, 12, 6, 3, 4, 5, 5, 9, 3];

/// The last call and what it gave.
#[derive(Clone, Copy, Debug, Default)]
pub struct Last {
    pub call: u32,
    pub refusal: u32,
    pub value: u64,
}

pub fn next_call(rng: &mut Rng, last: Last, first: bool) -> u32 {
    if first && rng.percent(50) {
        return 1;
    }
    if last.call == 6 && last.value == 1 && last.refusal == 0 && rng.percent(70) {
        return 8;
    }
    if matches!(last.call, 2..=5) && rng.percent(70) {
        return 6;
    }
    rng.weighted(&WEIGHTS) as u32 + 1
}

fn words(numbers: &[u32]) -> Vec<u8> {
    numbers.iter().flat_map(|n| n.to_le_bytes()).collect()
}

fn text(rng: &mut Rng, n: usize) -> Vec<u8> {
    (0..n).map(|_| rng.range(0x20, 0x7e) as u8).collect()
}

pub fn arguments(rng: &mut Rng, temper: &Temper, call: u32, state: &State) -> Vec<u8> {
    let mut args = good(rng, call, state);
    if rng.once_in(temper.arguments) {
        spoil(rng, call, &mut args);
    }
    args
}

fn good(rng: &mut Rng, call: u32, state: &State) -> Vec<u8> {
    let interface = rng.pick(&[0, 0, 0, 1, 2]);
    match call {
        1 => {
            let country = u32::from_le_bytes(rng.pick(&[*b"XX\0\0", *b"CA\0\0", *b"DE\x05\0"]));
            words(&[if rng.percent(20) { rng.word() } else { country }])
        }
        3 => join(rng),
        7 => {
            let mut args = words(&[interface]);
            let n = match rng.weighted(&[5, 2, 2]) {
                0 => rng.range(14, 200) as usize,
                1 => rng.pick(&[0, 1, 2, 3, 13, 14, 60, 1500, 1514]),
                _ => rng.pick(&[2018, 2019, 2021, 2022, 2023, 2024, 2029, 2030, 2031, 2032, 2044]),
            };
            args.extend(rng.bytes(n));
            args
        }
        8 => {
            let waiting = state.pending_rx.map_or(60, |b| b.len) as u64;
            let n = match rng.weighted(&[6, 2, 2]) {
                0 => 2048,
                1 => waiting,
                _ => (waiting + rng.range(0, 2)).saturating_sub(1),
            };
            words(&[n.min(2048) as u32])
        }
        9 => words(&[rng.below(3) as u32, rng.pick(&[0, 1, 2, 256, 0x8000_0000])]),
        11 => words(&[command(rng), interface]),
        12 => words(&[command(rng), rng.word(), interface]),
        13 => {
            let mut args = words(&[interface]);
            args.extend(variable(rng));
            args
        }
        _ => Vec::new(),
    }
}

fn command(rng: &mut Rng) -> u32 {
    let all: Vec<_> = commands().collect();
    rng.pick(&all)
}

fn join(rng: &mut Rng) -> Vec<u8> {
    let auth = rng.below(6) as u32;
    let ssid = rng.pick(&[0, 1, 5, 8, 31, 32, 32, 33, 64]);
    let limit = if auth == 4 { 128 } else { 64 };
    let passphrase = match rng.weighted(&[6, 4]) {
        0 => rng.range(8, 20) as usize,
        _ => rng.pick(&[0, 1, limit - 1, limit, limit + 1, 63, 64, 65, 127, 128, 129]),
    };
    let mut args = words(&[auth, ssid as u32]);
    if rng.percent(90) {
        args.extend(text(rng, ssid));
        args.extend(text(rng, passphrase));
    } else {
        args.extend(rng.bytes(ssid + passphrase));
    }
    args
}

/// Name, zero and data, at times at the limits.
fn variable(rng: &mut Rng) -> Vec<u8> {
    let whole = match rng.weighted(&[10, 2, 1, 8]) {
        0 => rng.range(1, 80),
        1 => rng.range(1700, 2012),
        2 => rng.range(2005, 2044),
        _ => rng.pick(&[
            1, 1777, 1778, 1779, 2008, 2009, 2011, 2012, 2013, 2016, 2017, 2020, 2021, 2044,
        ]),
    } as usize;
    let name = (rng.range(0, 20) as usize).min(whole - 1);
    let mut bytes = text(rng, name);
    bytes.push(0);
    let data = rng.bytes(whole - name - 1);
    bytes.extend(data);
    bytes
}

/// Numbers outside their enums, bytes missing or left over.
fn spoil(rng: &mut Rng, call: u32, args: &mut Vec<u8>) {
    let mut number = |args: &mut [u8], place: usize, from: &[u32]| {
        if let Some(bytes) = args.get_mut(4 * place..4 * place + 4) {
            bytes.copy_from_slice(&rng.pick(from).to_le_bytes());
        }
    };
    const OUTSIDE: [u32; 5] = [3, 4, 256, 0x0100_0000, u32::MAX];
    match call {
        3 => number(args, 0, &[6, 7, 256, u32::MAX]),
        7 | 13 => number(args, 0, &OUTSIDE),
        9 => number(args, 0, &[3, 4, 31, 32, u32::MAX]),
        11 => number(args, 0, &[0, 1, 3, 21, 261, 264, 0x8000_0002]),
        12 => number(args, 2, &OUTSIDE),
        _ => {}
    }
    match rng.weighted(&[4, 2, 2, 2]) {
        0 => {}
        1 => args.truncate(rng.below(args.len() as u64 + 1) as usize),
        2 => {
            let n = rng.range(1, 8) as usize;
            args.extend(rng.bytes(n));
        }
        _ if call == 3 && args.len() >= 8 => {
            let length = (args.len() - 8) as u32;
            args[4..8].copy_from_slice(&rng.pick(&[length, length + 1, u32::MAX]).to_le_bytes());
        }
        _ if call == 13 => args[4..].iter_mut().for_each(|b| *b |= 1),
        _ => {}
    }
    args.truncate(2048);
    if call == 8 && args.len() == 4 && u32::from_le_bytes(args[..].try_into().unwrap()) > 2048 {
        args.pop();
    }
}
