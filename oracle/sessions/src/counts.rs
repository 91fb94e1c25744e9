//! What a run of sessions reached.

use std::{collections::BTreeMap, fmt};

use cyw43_oracle::{CallResult, Oracle, call::NAMES, oracle::PANIC, rules::rules_for};
use tape::record_words;

use crate::session::Step;

#[derive(Clone, Debug, Default)]
pub struct Counts {
    pub sessions: u64,
    /// By call and refusal.
    pub refusals: BTreeMap<(u32, u32), u64>,
    /// Calls that are compared by a rule, by its request.
    pub rules: BTreeMap<&'static str, u64>,
    /// By what the header says.
    pub packets: BTreeMap<String, u64>,
    /// Faults by place and operation.
    pub faults: BTreeMap<(u32, u32), u64>,
    /// Operations by kind.
    pub wishes: BTreeMap<u32, u64>,
    /// States after a call.
    pub states: BTreeMap<u8, u64>,
    pub polled: BTreeMap<u64, u64>,
    pub longest_list: usize,
    /// Wraps of sequence, credit and id.
    pub wraps: [u64; 3],
    last: [u8; 3],
    /// Waits by length; those of init's start-up count as one.
    pub waits: BTreeMap<&'static str, u64>,
}

fn wait(ns: u32) -> &'static str {
    match ns {
        1_000 => "1 us or start-up",
        10_000 => "10 us or start-up",
        100_000 => "100 us or start-up",
        2_000_000 => "2 ms or start-up",
        50_000_000 => "50 ms or start-up",
        _ => "start-up",
    }
}

fn class(transfer: &[u8]) -> String {
    let Some(p) = transfer.get(4..16) else {
        return "below 12 bytes".into();
    };
    let size = u16::from_le_bytes([p[0], p[1]]);
    let complement = u16::from_le_bytes([p[2], p[3]]);
    if size == 0 && complement == 0 {
        return "zero size and complement".into();
    }
    if complement != !size {
        return "wrong complement".into();
    }
    if size < 12 {
        return "size below 12".into();
    }
    let h = usize::from(p[7]);
    match p[5] & 15 {
        0 => "channel 0 control".into(),
        1 if h > usize::from(size) => "channel 1 event, header beyond size".into(),
        1 if usize::from(size) < h + 48 => "channel 1 event, short".into(),
        1 => match transfer.get(4 + h + 36..4 + h + 40) {
            Some(b) => match u32::from_be_bytes(b.try_into().unwrap()) {
                kind @ 0..=100 => format!("channel 1 event, type {kind:2}"),
                _ => "channel 1 event, type above 100".into(),
            },
            None => "channel 1 event, type not received".into(),
        },
        2 => "channel 2 data".into(),
        _ => "channel 3 to 15".into(),
    }
}

impl Counts {
    /// A session begins, in a fresh state.
    pub fn begin(&mut self) {
        self.sessions += 1;
        self.last = [0; 3];
    }

    pub fn add(&mut self, oracle: &Oracle, step: &Step, result: &CallResult) {
        *self.refusals.entry((step.played.call, result.refusal)).or_default() += 1;
        for rule in rules_for(result) {
            *self.rules.entry(rule.request).or_default() += 1;
        }
        let state = oracle.state();
        *self.states.entry(state.state).or_default() += 1;
        let now = [state.packet_tx_seq, state.last_bus_data_credit, state.requested_ioctl_id];
        for ((wraps, &now), &last) in self.wraps.iter_mut().zip(&now).zip(&self.last) {
            *wraps += u64::from(now < last);
        }
        self.last = now;
        if step.played.call == 6 && result.refusal == 0 {
            *self.polled.entry(result.value).or_default() += 1;
        }
        self.longest_list = self.longest_list.max(oracle.records().len());

        let mut answers = &step.played.recording[..];
        let mut log = &result.log[..];
        while let Some(&head) = log.first() {
            let kind = head >> 28;
            *self.wishes.entry(kind).or_default() += 1;
            if kind == 10 {
                *self.waits.entry(wait(head & 0x0fff_ffff)).or_default() += 1;
            }
            let words = if kind == 6 { 1 + (head as usize & 0xffff).div_ceil(4) } else { 1 };
            log = &log[words..];
            let Some(&answer) = answers.first() else {
                continue;
            };
            if kind == 10 || answers.len() < record_words(answer) {
                continue;
            }
            match answer >> 28 {
                7 => *self.faults.entry((answer & 0xf, kind)).or_default() += 1,
                3 if kind == 3 => {
                    let words = &answers[1..record_words(answer)];
                    let bytes: Vec<u8> = words.iter().flat_map(|w| w.to_le_bytes()).collect();
                    *self.packets.entry(class(&bytes)).or_default() += 1;
                }
                _ => {}
            }
            answers = &answers[record_words(answer)..];
        }
    }

    pub fn calls(&self) -> u64 {
        self.refusals.values().sum()
    }
}

/// How often each refusal came.
fn numbers(f: &mut fmt::Formatter<'_>, of: impl Iterator<Item = (u32, u64)>) -> fmt::Result {
    for (refusal, n) in of {
        match refusal {
            PANIC => write!(f, " panic={n}")?,
            r => write!(f, " {r}={n}")?,
        }
    }
    writeln!(f)
}

impl fmt::Display for Counts {
    fn fmt(&self, f: &mut fmt::Formatter<'_>) -> fmt::Result {
        writeln!(f, "sessions {}, calls {}", self.sessions, self.calls())?;
        let mut sums = BTreeMap::<u32, u64>::new();
        for ((_, refusal), n) in &self.refusals {
            *sums.entry(*refusal).or_default() += n;
        }
        write!(f, "refusals")?;
        numbers(f, sums.iter().map(|(&refusal, &n)| (refusal, n)))?;
        for call in 1..=14 {
            let of = self.refusals.iter().filter(|((c, _), _)| *c == call);
            let all: u64 = of.clone().map(|(_, n)| n).sum();
            write!(f, "call {call:2} {:8} {all:8}:", NAMES[call as usize])?;
            numbers(f, of.map(|(&(_, refusal), &n)| (refusal, n)))?;
        }
        writeln!(f, "rules {:?}", self.rules)?;
        writeln!(f, "poll values {:?}", self.polled)?;
        writeln!(f, "states after a call {:?}", self.states)?;
        writeln!(f, "wraps of sequence, credit, id {:?}", self.wraps)?;
        writeln!(f, "longest scan list {}", self.longest_list)?;
        writeln!(f, "operations by kind {:?}", self.wishes)?;
        writeln!(f, "waits {:?}", self.waits)?;
        write!(f, "faults, place/operation:")?;
        for ((place, kind), n) in &self.faults {
            write!(f, " {place}/{kind}={n}")?;
        }
        writeln!(f)?;
        for (class, n) in &self.packets {
            writeln!(f, "packet {n:8} {class}")?;
        }
        Ok(())
    }
}
