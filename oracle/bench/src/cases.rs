//! The cases: calls with their recordings, and where both drivers stand before them.

use std::{cell::RefCell, ops::Range, rc::Rc};

use cyw43_oracle::{
    Oracle,
    call::Call,
    player::{LOG, Played},
};
use tape::Tape;

use crate::{
    port::{Port, session_bytes},
    radio::Radio,
};

pub struct Case {
    pub name: &'static str,
    /// How often the calls are made in a row from where the drivers stand.
    pub batch: usize,
    pub calls: Vec<Played>,
    pub rust: Oracle,
    pub port: Port,
}

/// Both drivers, in the same session.
struct Both {
    radio: Rc<RefCell<Radio>>,
    rust: Oracle,
    port: Port,
}

fn words(numbers: &[u32], bytes: &[u8]) -> Vec<u8> {
    numbers.iter().flat_map(|n| n.to_le_bytes()).chain(bytes.iter().copied()).collect()
}

/// What a call left in the Rust and in the port must be the same.
pub fn same(
    name: &str,
    refusals: (u32, u32),
    values: (u64, u64),
    logs: (&[u32], &[u32]),
    rust: &Oracle,
    port: &Port,
) {
    assert_eq!(refusals.0, refusals.1, "{name}: refusals");
    assert_eq!(values.0, values.1, "{name}: values");
    assert_eq!(logs.0, logs.1, "{name}: logs");
    let bytes = session_bytes(&rust.state(), &rust.records());
    assert_eq!(bytes, port.session[..bytes.len()], "{name}: sessions");
    assert_eq!(rust.buffer(), &*port.buf, "{name}: work buffers");
}

impl Both {
    fn new() -> Self {
        Self { radio: Rc::default(), rust: Oracle::new(), port: Port::new() }
    }

    /// One call, answered by the radio as it goes; the recording is kept.
    fn call(&mut self, call: u32, args: Vec<u8>) -> Played {
        let (mut out, mut out2) = ([0; 2048], [0; 2048]);
        let (result, recording) =
            self.rust.call_live(call, &args, self.radio.clone(), LOG, &mut out);
        assert_eq!(result.refusal, 0, "call {call} was refused");
        let read = Call::read(call, &args).expect("good arguments");
        let refusal = self.port.call(&read, &recording, &mut out2);
        let values = (result.value, self.port.value());
        same(
            "recording",
            (result.refusal, refusal),
            values,
            (&result.log, self.port.log()),
            &self.rust,
            &self.port,
        );
        assert_eq!(out, out2, "outputs");
        Played { call, args, recording }
    }

    fn poll(&mut self) -> Played {
        self.call(6, Vec::new())
    }

    fn heard(&mut self, f: impl FnOnce(&mut Radio)) -> Played {
        f(&mut self.radio.borrow_mut());
        self.poll()
    }

    /// A case that makes these calls, which are played on both.
    fn case(
        &mut self,
        name: &'static str,
        batch: usize,
        calls: impl FnOnce(&mut Self) -> Vec<Played>,
    ) -> Case {
        let (rust, port) = (self.rust.clone(), self.port.clone());
        Case { name, batch, calls: calls(self), rust, port }
    }

    /// Room for 255 sends in a row.
    fn credit(&mut self) {
        let mut state = self.rust.state();
        state.last_bus_data_credit = state.packet_tx_seq.wrapping_sub(1);
        self.rust.set_state(&state);
        self.port.session[1] = state.last_bus_data_credit;
    }
}

fn scan(both: &mut Both) -> Vec<Played> {
    let mut calls = vec![both.call(2, Vec::new())];
    calls.extend((0..32).map(|n| both.heard(|radio| radio.network(n))));
    calls.push(both.heard(|radio| radio.event(69, 0, 0, &[])));
    assert!(both.rust.state().scan_done && both.rust.records().len() == 32);
    calls
}

fn join(both: &mut Both) -> Vec<Played> {
    let ssid = b"network number 7";
    let args = words(&[2, ssid.len() as u32], &[&ssid[..], b"correct horse battery"].concat());
    let mut calls = vec![both.call(3, args)];
    // authenticated, associated, link up, SSID set, keyed
    for (kind, status, flags) in [(3, 0, 0), (7, 0, 0), (16, 0, 1), (0, 0, 0), (46, 6, 0)] {
        calls.push(both.heard(|radio| radio.event(kind, status, flags, &[])));
    }
    assert_eq!(both.rust.state().state, 2, "not connected");
    calls
}

/// A board's session: init, a scan of 32 networks, a join, then frames.
pub fn cases() -> Vec<Case> {
    let mut both = Both::new();
    both.call(1, words(&[0x5357], &[]));
    let scan = both.case("scan of 32 networks", 1, scan);
    let join = both.case("join until connected", 1, join);
    let idle = both.case("poll, nothing", 200, |both| vec![both.poll()]);
    // The first frame of a stream, so that the good-packet mark stays set from here on.
    both.heard(|radio| {
        radio.frame(&[0x55; 60]);
        radio.frame(&[0x55; 60]);
    });
    let poll60 = both.case("poll, a frame of 60 bytes", 200, |both| vec![both.poll()]);
    let poll = |n| move |both: &mut Both| vec![both.heard(|radio| radio.frame(&vec![0x55; n]))];
    let poll1500 = both.case("poll, a frame of 1,500 bytes", 200, poll(1500));
    // The longest read of all, of 1,536 bytes.
    let poll1518 = both.case("poll, a frame of 1,518 bytes", 200, poll(1518));
    both.credit();
    let send = |n| move |both: &mut Both| vec![both.call(7, words(&[0], &vec![0xaa; n]))];
    let send60 = both.case("send of 60 bytes", 200, send(60));
    both.credit();
    let send1500 = both.case("send of 1,500 bytes", 200, send(1500));
    vec![poll60, poll1500, poll1518, idle, send60, send1500, join, scan]
}

/// A case's calls as both sides make them: arguments read, recordings in one run of words.
pub struct Prepared<'a> {
    pub case: &'a Case,
    pub calls: Vec<(Call<'a>, Range<usize>)>,
    pub words: Vec<u32>,
}

impl<'a> Prepared<'a> {
    pub fn new(case: &'a Case) -> Self {
        let (mut calls, mut words) = (Vec::new(), Vec::new());
        for played in &case.calls {
            let start = words.len();
            words.extend(&played.recording);
            calls.push((Call::read(played.call, &played.args).unwrap(), start..words.len()));
        }
        Self { case, calls, words }
    }

    pub fn tape(&self) -> Tape {
        Tape::recorded(&self.words, LOG)
    }
}
