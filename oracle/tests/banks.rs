//! Both banks of each limit of document 01, on the Rust itself.

mod common;

use common::*;
use cyw43_oracle::{
    Oracle,
    state::{Packet, State},
};

/// The packet reader over these bytes, with this last credit.
fn read(last: u8, bytes: &[u8]) -> (Packet, State) {
    let mut oracle = Oracle::new();
    let mut state = oracle.state();
    state.last_bus_data_credit = last;
    oracle.set_state(&state);
    oracle.buffer_mut()[..bytes.len()].copy_from_slice(bytes);
    let packet = oracle.read_packet().expect("no refusal");
    (packet, oracle.state())
}

#[test]
fn credit_modulo_256() {
    for (credit, stored) in [(14, 14), (15, 250), (249, 250), (250, 250), (255, 255)] {
        let (_, state) = read(250, &header(16, 2, 12, credit));
        assert_eq!(state.last_bus_data_credit, stored, "{credit}");
    }
    let (_, state) = read(250, &header(16, 3, 12, 14));
    assert_eq!(state.last_bus_data_credit, 250);
}

#[test]
fn data_sizes() {
    let (packet, state) = read(1, &header(16, 2, 12, 5));
    assert_eq!((packet, state.last_bus_data_credit), (Packet::None, 5));
    let (packet, _) = read(1, &header(17, 2, 12, 5));
    assert_eq!(packet, Packet::Data { offset: 16, len: 1, interface: 0 });
    let (packet, _) = read(1, &header(17, 2, 14, 5));
    assert_eq!(packet, Packet::None);
}

#[test]
fn control_and_event_sizes() {
    assert_eq!(read(1, &header(27, 0, 12, 5)).0, Packet::None);
    assert_eq!(read(1, &header(28, 0, 12, 5)).0, Packet::Control { offset: 28, len: 0, status: 0 });
    assert_eq!(read(1, &header(12, 1, 12, 5)).0, Packet::Event { offset: 12, len: 0 });
    let mut oracle = Oracle::new();
    oracle.buffer_mut()[..12].copy_from_slice(&header(12, 1, 13, 5));
    assert_eq!(oracle.read_packet().unwrap_err().refusal, 10);
    assert_eq!(oracle.state().last_bus_data_credit, 5);
}

#[test]
fn pending_count() {
    let mut oracle = Oracle::new();
    let recording = [&interrupt()[..], &[0x2000_0000, 0x000c_0100]].concat();
    let result = call(&mut oracle, 6, &[], &recording);
    assert_eq!((result.refusal, result.log.last()), (8, Some(&0x3000_0600)));
    let recording = [&interrupt()[..], &[0x2000_0000, 0x000c_0300, DONE]].concat();
    let result = call(&mut oracle, 6, &[], &recording);
    assert_eq!((result.refusal, result.log.last()), (0, Some(&0x9000_0001)));
}

#[test]
fn frames() {
    for (length, refusal, sequence) in [(2022, 0, 1), (2023, 1, 1), (2030, 1, 1), (2031, 1, 0)] {
        let mut oracle = Oracle::new();
        let args = vec![0; 4 + length];
        let result = call(&mut oracle, 7, &args, &[READY[0], READY[1], DONE]);
        assert_eq!(result.refusal, refusal, "{length}");
        assert_eq!(oracle.state().packet_tx_seq, sequence, "{length}");
    }
}

#[test]
fn variables() {
    for (length, refusal, spent) in [(2012, 0, 1), (2013, 1, 1), (2020, 1, 1), (2021, 1, 0)] {
        let mut oracle = Oracle::new();
        let result = call(&mut oracle, 13, &vec![0; 4 + length], &exchange(false, 2, 1));
        assert_eq!(result.refusal, refusal, "{length}");
        let state = oracle.state();
        assert_eq!((state.packet_tx_seq, state.requested_ioctl_id), (spent, spent), "{length}");
    }
}

#[test]
fn events_of_47_and_48() {
    for (length, state) in [(47, 0), (48, 2)] {
        let mut oracle = Oracle::new();
        // SET_SSID with status 0 connects an open network.
        let bytes = [event(length, 0, 0, 0), vec![0; 4]].concat();
        let recording = [&brings(&bytes)[..], &none()].concat();
        assert_eq!(call(&mut oracle, 6, &[], &recording).refusal, 0);
        assert_eq!(oracle.state().state, state, "{length}");
    }
}

#[test]
fn stall_of_a_million() {
    for (us, refusal) in [(1_000_000, 8), (1_000_001, 2)] {
        let mut oracle = Oracle::new();
        let mut state = oracle.state();
        state.wlan_flow_control = 1;
        oracle.set_state(&state);
        let recording = [&clock(0)[..], &[0x1000_0000], &clock(us)].concat();
        let result = call(&mut oracle, 14, &[], &recording);
        assert_eq!(result.refusal, refusal, "{us}");
    }
}

#[test]
fn reply_wait_of_half_a_million() {
    for (us, refusal) in [(499_999, 8), (500_000, 2)] {
        let mut oracle = Oracle::new();
        let recording = [&READY[..], &[DONE], &clock(7), &clock(7 + us)].concat();
        assert_eq!(call(&mut oracle, 14, &[], &recording).refusal, refusal, "{us}");
    }
}

#[test]
fn disconnect_ticks() {
    for (ticks, left) in [(999, 3), (1000, 0)] {
        let mut oracle = Oracle::new();
        let recording = [&exchange(false, 2, 1)[..], &tick(u64::MAX - 4)].concat();
        assert_eq!(call(&mut oracle, 4, &[], &recording).refusal, 0);
        assert_eq!(oracle.state().state, 3);
        let now = (u64::MAX - 4).wrapping_add(ticks);
        let recording = [&none()[..], &tick(now)].concat();
        assert_eq!(call(&mut oracle, 6, &[], &recording).refusal, 0);
        assert_eq!(oracle.state().state, left, "{ticks}");
    }
}
