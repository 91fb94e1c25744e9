//! The player of document 01: calls in, lines out.

use std::fmt::Write;

use crate::{
    call::take_length,
    oracle::{CallResult, Oracle, PANIC},
    rules::rules_for,
    state::{Failure, Record, State},
};

pub const LOG: usize = 8192;
/// In a session file: a fresh state, list and buffer.
pub const ANEW: u32 = 0xd000_0000;
const ARGUMENTS: usize = 2048;
const RECORDING: usize = 4096;
const OUTPUT: u32 = 2048;

/// One call of the player's input.
#[derive(Clone, Debug, PartialEq, Eq)]
pub struct Played {
    pub call: u32,
    pub args: Vec<u8>,
    pub recording: Vec<u32>,
}

impl Played {
    /// The call as the player's input words.
    pub fn words(&self) -> Vec<u32> {
        let mut words = vec![0xf000_0000 + self.call, self.args.len() as u32];
        for part in self.args.chunks(4) {
            let mut word = [0; 4];
            word[..part.len()].copy_from_slice(part);
            words.push(u32::from_le_bytes(word));
        }
        words.push(self.recording.len() as u32);
        words.extend(&self.recording);
        words
    }

    /// How long an output the call needs.
    pub fn output(&self) -> usize {
        match self.call {
            8 => take_length(&self.args).unwrap_or(0) as usize,
            _ => 0,
        }
    }
}

/// Reads the player's input from its front.
pub struct Input<'a>(pub &'a [u8]);

impl Input<'_> {
    pub fn is_empty(&self) -> bool {
        self.0.is_empty()
    }

    pub fn word(&mut self) -> Option<u32> {
        let (word, rest) = self.0.split_first_chunk::<4>()?;
        self.0 = rest;
        Some(u32::from_le_bytes(*word))
    }

    fn count(&mut self, limit: usize) -> Option<usize> {
        self.word().map(|n| n as usize).filter(|&n| n <= limit)
    }

    /// None where the player says `bad`.
    pub fn call(&mut self) -> Option<Played> {
        let call = self.word()?.checked_sub(0xf000_0000)?;
        if !(1..=14).contains(&call) {
            return None;
        }
        let length = self.count(ARGUMENTS)?;
        let (args, rest) = self.0.split_at_checked(length.next_multiple_of(4))?;
        self.0 = rest;
        let words = self.count(RECORDING)?;
        let recording = (0..words).map(|_| self.word()).collect::<Option<Vec<_>>>()?;
        let args = args[..length].to_vec();
        if call == 8 && take_length(&args).is_some_and(|n| n > OUTPUT) {
            return None;
        }
        Some(Played { call, args, recording })
    }
}

/// How much to print after each call.
#[derive(Clone, Copy, Debug, PartialEq, Eq)]
pub enum Print {
    /// What document 01 says.
    Plain,
    /// State, scan list, output and the buffer's bytes too.
    Full,
    /// The same with the buffer's FNV-1a hash.
    Hashed,
    /// The same as numbers on one line, as the observer prints it.
    Numbers,
}

/// What the player prints for one call.
pub fn lines(call: u32, result: &CallResult, oracle: &Oracle) -> String {
    let s = oracle.state();
    let refusal = match result.refusal {
        PANIC => "panic".to_string(),
        n => n.to_string(),
    };
    let mut text = format!(
        "{call} {refusal} {} {} {} {} {} {} {}\n",
        result.value,
        s.state,
        s.packet_tx_seq,
        s.last_bus_data_credit,
        s.wlan_flow_control,
        s.requested_ioctl_id,
        result.log.len()
    );
    for word in &result.log {
        writeln!(text, "{word:08x}").unwrap();
    }
    text
}

fn hex(bytes: &[u8]) -> String {
    bytes.iter().fold(String::new(), |mut text, b| {
        write!(text, "{b:02x}").unwrap();
        text
    })
}

pub fn fnv(bytes: &[u8]) -> u64 {
    bytes
        .iter()
        .fold(0xcbf2_9ce4_8422_2325, |h, &b| (h ^ u64::from(b)).wrapping_mul(0x0100_0000_01b3))
}

fn failure(f: Option<Failure>) -> String {
    f.map_or("none".into(), |f| format!("{},{},{},{}", f.kind, f.event, f.status, f.reason))
}

/// The further lines of `--full`.
pub fn full_lines(result: &CallResult, oracle: &Oracle, out: &[u8], print: Print) -> String {
    let s = oracle.state();
    let mut text = format!(
        "state mark={} reply={} frame={} scan_done={} scan_in_progress={} failure={} auth={} tick={}\n",
        u8::from(s.had_successful_packet),
        s.pending_ioctl_resp
            .map_or("none".into(), |r| format!("{},{},{}", r.offset, r.len, r.status)),
        s.pending_rx.map_or("none".into(), |b| format!("{},{}", b.offset, b.len)),
        u8::from(s.scan_done),
        u8::from(s.scan_in_progress),
        failure(s.connect_failure),
        s.current_auth,
        s.disconnect_started_tick.map_or("none".into(), |t| t.to_string()),
    );
    writeln!(text, "polled failure={}", failure(result.failure)).unwrap();
    for (i, r) in oracle.records().iter().enumerate() {
        let (ssid, bssid) = (hex(&r.ssid), hex(&r.bssid));
        writeln!(text, "record {i} {ssid} {} {bssid} {} {}", r.ssid_len, r.channel, r.rssi)
            .unwrap();
    }
    match print {
        Print::Hashed => writeln!(text, "buffer fnv {:016x}", fnv(oracle.buffer())),
        _ => writeln!(text, "buffer {}", hex(oracle.buffer())),
    }
    .unwrap();
    writeln!(text, "output {}", hex(out)).unwrap();
    if let Some(message) = &result.panic {
        writeln!(text, "panic {message}").unwrap();
    }
    text
}

/// A sum over bytes in which each place counts.
fn sum(bytes: &[u8]) -> u64 {
    bytes.iter().fold(0, |h, &b| (h * 4099 + u64::from(b) + 1) % 281_474_976_710_597)
}

/// A failure's tag, from 1 in the order of the variants that the driver builds, its status and its reason; zeros
/// for none.
fn failure_parts(f: Option<Failure>) -> (u8, u32, u32) {
    let tag = |kind| match kind {
        0..=5 => kind + 1,
        7 => 7,
        _ => panic!("a failure that the driver never builds"),
    };
    f.map_or((0, 0, 0), |f| (tag(f.kind), f.status, f.reason))
}

/// The state's 41 bytes, as a session has them (`stateBytes` in `crates/state_bytes/specs/StateBytes.antt`).
fn state_bytes(s: &State) -> Vec<u8> {
    let mut b = vec![
        s.packet_tx_seq,
        s.last_bus_data_credit,
        s.wlan_flow_control,
        s.requested_ioctl_id,
        s.had_successful_packet.into(),
        s.scan_done.into(),
        s.scan_in_progress.into(),
    ];
    let half = |n: usize| u16::try_from(n).expect("an offset or a length of 16 bits").to_le_bytes();
    let r = s.pending_ioctl_resp;
    b.push(r.is_some().into());
    let (offset, len, status) = r.map_or((0, 0, 0), |r| (r.offset, r.len, r.status));
    b.extend([half(offset), half(len)].concat());
    b.extend(status.to_le_bytes());
    let frame = s.pending_rx;
    b.push(frame.is_some().into());
    let (offset, len) = frame.map_or((0, 0), |f| (f.offset, f.len));
    b.extend([half(offset), half(len)].concat());
    b.extend([s.state, s.current_auth]);
    let (tag, status, reason) = failure_parts(s.connect_failure);
    b.push(tag);
    b.extend([status.to_le_bytes(), reason.to_le_bytes()].concat());
    b.push(s.disconnect_started_tick.is_some().into());
    b.extend(s.disconnect_started_tick.unwrap_or(0).to_le_bytes());
    b
}

/// A record's 42 bytes (`recordBytes` in `crates/session_bytes/specs/ListBytes.antt`).
fn record_bytes(r: &Record) -> Vec<u8> {
    let len = u8::try_from(r.ssid_len).expect("at most 32");
    let channel = u8::try_from(r.channel).expect("a channel's low byte");
    [&r.ssid[..], &r.bssid, &[len, channel], &r.rssi.to_le_bytes()].concat()
}

/// The numbers of `--numbers`: the state's bytes; the failure reported; count of the scan list and
/// sum of its records' bytes; sums of work buffer and output.
fn numbers(result: &CallResult, oracle: &Oracle, out: &[u8]) -> Vec<u64> {
    let mut numbers: Vec<u64> = state_bytes(&oracle.state()).into_iter().map(u64::from).collect();
    let (tag, status, reason) = failure_parts(result.failure);
    numbers.extend([u64::from(tag), status.into(), reason.into()]);
    let records = oracle.records();
    numbers.push(records.len() as u64);
    let bytes: Vec<u8> = records.iter().flat_map(record_bytes).collect();
    numbers.extend([sum(&bytes), sum(oracle.buffer()), sum(out)]);
    numbers
}

/// The further line of `--numbers`.
pub fn number_line(numbers: &[u64]) -> String {
    numbers.iter().fold(String::new(), |text, n| text + &format!("{n} ")) + "\n"
}

/// What becomes of the rules that a call is compared by.
#[derive(Clone, Copy, Debug, PartialEq, Eq)]
pub enum Rules {
    Unsaid,
    /// `session` where one begins, and after a call `rule` and the request of each.
    Named,
    /// The numbers are those of the requests, where they are not the Rust's.
    Followed,
}

/// What is printed of an input, and how it is read.
#[derive(Clone, Copy, Debug)]
pub struct Options {
    pub print: Print,
    /// A session file: one word 0xE0000000 + log capacity stands before each call, and `ANEW` begins another session.
    pub session: bool,
    pub rules: Rules,
}

/// All that the player prints for an input. A panic ends the session.
pub fn play(input: &[u8], options: Options) -> String {
    let mut oracle = Oracle::new();
    let mut input = Input(input);
    let mut text = String::new();
    while !input.is_empty() {
        let mut capacity = Some(LOG);
        if options.session {
            let word = input.word();
            if word == Some(ANEW) {
                oracle = Oracle::new();
                text += if options.rules == Rules::Named { "session\n" } else { "" };
                continue;
            }
            capacity = word.and_then(|w| w.checked_sub(0xe000_0000)).map(|n| n as usize);
        }
        let Some((capacity, played)) = capacity.filter(|&n| n <= LOG).zip(input.call()) else {
            text += "bad\n";
            break;
        };
        let mut out = vec![0; played.output()];
        let result = oracle.call(played.call, &played.args, &played.recording, capacity, &mut out);
        text += &lines(played.call, &result, &oracle);
        match options.print {
            Print::Plain => {}
            Print::Numbers => {
                let mut numbers = numbers(&result, &oracle, &out);
                if options.rules == Rules::Followed {
                    rules_for(&result).for_each(|rule| rule.follow(played.call, &mut numbers));
                }
                text += &number_line(&numbers);
            }
            print => text += &full_lines(&result, &oracle, &out, print),
        }
        for rule in rules_for(&result).filter(|_| options.rules == Rules::Named) {
            writeln!(text, "rule {}", rule.request).unwrap();
        }
        if result.panic.is_some() && !input.0.starts_with(&ANEW.to_le_bytes()) {
            break;
        }
    }
    text
}
