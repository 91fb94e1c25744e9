//! The refusals that the harness makes or tells apart, and what they leave.

mod common;

use common::*;
use cyw43_oracle::{Oracle, player::LOG};

#[test]
fn table_examples() {
    let fresh = Oracle::new();
    let refusal = |number, args: &[u8], recording: &[u32]| {
        call(&mut fresh.clone(), number, args, recording).refusal
    };
    assert_eq!(refusal(9, &words(&[3, 1]), &[]), 1);
    assert_eq!(refusal(8, &words(&[60]), &[]), 5);
    assert_eq!(refusal(6, &[], &[]), 8);
    assert_eq!(refusal(6, &[], &tick(0)), 9);
    assert_eq!(
        refusal(
            14,
            &[],
            &[&exchange(false, 2, 1)[..9], &brings(&reply(28, 12, 2, 1, -1))].concat()
        ),
        3
    );
    let beyond = header(12, 1, 13, 2);
    assert_eq!(refusal(6, &[], &brings(&beyond)), 10);
    let mut oracle = fresh.clone();
    let none = oracle.call(6, &[], &[], 0, &mut []);
    assert_eq!((none.refusal, none.log.len()), (12, 0));
    assert_eq!(oracle.call_over(2047, 6, &[], &[], LOG, &mut []).refusal, 13);
}

#[test]
fn a_reply_copied_past_the_buffer() {
    let bytes = reply(2283, 255, 2, 1, 0);
    let recording = [
        &READY[..],
        &[DONE],
        &clock(0),
        &clock(0),
        &interrupt(),
        &status(300),
        &packet(300, &bytes),
    ]
    .concat();
    let mut oracle = Oracle::new();
    let result = call(&mut oracle, 13, &vec![0; 4 + 2012], &recording);
    assert_eq!((result.refusal, result.panic), (11, None));
}

#[test]
fn faults_keep_their_place() {
    for place in 0..10 {
        let mut oracle = Oracle::new();
        let result = call(&mut oracle, 6, &[], &[0x7000_0000 | place]);
        assert_eq!((result.refusal, result.value), (7, u64::from(place)));
    }
    for bad in [0x7000_000a, 0x7000_000f, 0x7000_0010, 0x7800_0004] {
        assert_eq!(call(&mut Oracle::new(), 6, &[], &[bad]).refusal, 9);
    }
}

/// A fault that a try ignores, then a time-out of the driver's own.
#[test]
fn an_ignored_fault_is_not_the_end() {
    let before = [
        exchange(false, 2, 1),
        exchange(true, 20, 2),
        vec![0x7000_0004],
        exchange(true, 20, 4),
        exchange(true, 20, 5),
        exchange(true, 20, 6),
        exchange(true, 20, 7),
        clock(150_000).to_vec(),
        READY.to_vec(),
        vec![DONE],
    ]
    .concat();
    let recording = [&before[..], &clock(0), &clock(500_000)].concat();
    let mut oracle = Oracle::new();
    let result = call(&mut oracle, 1, &words(&[0x5858]), &recording);
    assert_eq!((result.refusal, result.value), (2, 0));
    let recording = [&before[..], &clock(0), &clock(0), &[0x7000_0004]].concat();
    let mut oracle = Oracle::new();
    let result = call(&mut oracle, 1, &words(&[0x5858]), &recording);
    assert_eq!((result.refusal, result.value), (7, 4));
}

#[test]
fn whole_records() {
    let refusal = |recording: &[u32]| call(&mut Oracle::new(), 6, &[], recording).refusal;
    assert_eq!(refusal(&[0x4000_0000, 0]), 8);
    assert_eq!(refusal(&[0x4000_0000, 0, 0]), 9);
    let mut long = vec![0; 16_385];
    long[0] = 0x3000_ffff;
    assert_eq!(refusal(&long), 8);
    long.push(0);
    assert_eq!(refusal(&long), 9);
    for head in [0, 0x8000_0000, 0xf000_0000, 0x1001_0000, 0x1800_0020] {
        assert_eq!(refusal(&[head]), 9);
    }
}

/// The scan's padding is zero in the packet and in the buffer. (Rust 1.95 leaves zeros there
/// without the harness's help too, so this does not show that the help works.)
#[test]
fn scan_padding_is_zero() {
    let mut oracle = Oracle::new();
    let result = call(&mut oracle, 2, &[], &exchange(false, 2, 1));
    assert_eq!((result.refusal, result.log[1]), (0, 0x6000_0070));
    assert_eq!(result.log[2 + 27] & 0xffff, 0);
    assert_eq!(oracle.buffer()[108..110], [0, 0]);
}

#[test]
fn rolled_back() {
    let mut oracle = Oracle::new();
    call(&mut oracle, 14, &[], &exchange(false, 2, 1));
    let (state, buffer) = (oracle.state(), *oracle.buffer());
    let whole = exchange(true, 3, 2);
    for cut in 0..whole.len() {
        let result = call(&mut oracle, 14, &[], &whole[..cut]);
        assert_eq!(result.refusal, 8);
        assert_eq!((oracle.state(), *oracle.buffer()), (state, buffer));
    }
    let full = call(&mut oracle.clone(), 14, &[], &whole).log.len();
    for capacity in 0..full {
        let result = oracle.call(14, &[], &whole, capacity, &mut []);
        assert_eq!(result.refusal, 12);
        assert!(result.log.len() <= capacity);
        assert_eq!((oracle.state(), *oracle.buffer()), (state, buffer));
    }
    assert_eq!(oracle.call(14, &[], &whole, full, &mut []).refusal, 0);
}
