//! Recordings in short.

#![allow(dead_code)]

use cyw43_oracle::{CallResult, Oracle, player::LOG};

pub const READY: [u32; 2] = [0x2000_0000, 0x20];
pub const DONE: u32 = 0x6000_0000;

pub fn clock(us: u64) -> [u32; 3] {
    [0x4000_0000, us as u32, (us >> 32) as u32]
}

pub fn tick(n: u64) -> [u32; 3] {
    [0x5000_0000, n as u32, (n >> 32) as u32]
}

/// Interrupt 0x20 and its write's answer.
pub fn interrupt() -> [u32; 2] {
    [0x1000_0020, DONE]
}

/// A status that counts n bytes.
pub fn status(n: u32) -> [u32; 2] {
    [0x2000_0000, 0x100 | n << 9]
}

/// No packet: a status without 0x100.
pub fn none() -> [u32; 2] {
    [0x2000_0000, 0]
}

/// A read of n bytes that brings `bytes`, zeros after them.
pub fn packet(n: usize, bytes: &[u8]) -> Vec<u32> {
    let mut transfer = vec![0; 4 + n.next_multiple_of(4)];
    let there = bytes.len().min(n);
    transfer[4..4 + there].copy_from_slice(&bytes[..there]);
    let mut words = vec![0x3000_0000 | n as u32];
    words.extend(transfer.chunks(4).map(|c| u32::from_le_bytes(c.try_into().unwrap())));
    words
}

/// A header with flow 0.
pub fn header(size: u16, channel: u8, h: u8, credit: u8) -> Vec<u8> {
    let mut bytes = size.to_le_bytes().to_vec();
    bytes.extend((!size).to_le_bytes());
    bytes.extend([0, channel, 0, h, 0, credit, 0, 0]);
    bytes
}

/// A reply's 28 bytes of headers.
pub fn reply(size: u16, h: u8, credit: u8, id: u8, status: i32) -> Vec<u8> {
    let mut bytes = header(size, 0, h, credit);
    bytes.resize(12.max(h as usize), 0);
    bytes.extend([0; 8]);
    bytes.extend((u32::from(id) << 16).to_le_bytes());
    bytes.extend(status.to_le_bytes());
    bytes
}

/// An event of the given declared length.
pub fn event(length: u16, kind: u32, status: u32, reason: u32) -> Vec<u8> {
    let mut bytes = header(12 + length, 1, 12, 1);
    bytes.extend([0; 32 + 4]);
    bytes.extend(kind.to_be_bytes());
    bytes.extend(status.to_be_bytes());
    bytes.extend(reason.to_be_bytes());
    bytes
}

pub fn words(numbers: &[u32]) -> Vec<u8> {
    numbers.iter().flat_map(|n| n.to_le_bytes()).collect()
}

pub fn call(oracle: &mut Oracle, number: u32, args: &[u8], recording: &[u32]) -> CallResult {
    let mut out = [0; 2048];
    oracle.call(number, args, recording, LOG, &mut out)
}

/// Interrupt, status and one packet that is as long as its header says.
pub fn brings(bytes: &[u8]) -> Vec<u32> {
    let n = bytes.len();
    [&interrupt()[..], &status(n as u32), &packet(n, bytes)].concat()
}

/// A good exchange: ready, done, clock twice, a reply without payload.
pub fn exchange(mark: bool, credit: u8, id: u8) -> Vec<u32> {
    let bytes = reply(28, 12, credit, id, 0);
    let poll = [&status(28)[..], &packet(28, &bytes)].concat();
    let interrupt: &[u32] = if mark { &[] } else { &interrupt() };
    [&READY[..], &[DONE], &clock(0), &clock(0), interrupt, &poll].concat()
}
