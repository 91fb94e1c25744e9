//! A radio and a board that answer at once: each request has its reply, and what is queued comes.

use std::collections::VecDeque;

use tape::{Source, Wish};

#[derive(Default)]
pub struct Radio {
    queued: VecDeque<Vec<u8>>,
    credit: u8,
    clock: u64,
}

const CONTROL: u8 = 0;
const EVENT: u8 = 1;
const DATA: u8 = 2;

impl Radio {
    fn queue(&mut self, channel: u8, header: u8, body: &[u8]) {
        let size = u16::from(header) + body.len() as u16;
        let mut bytes = vec![0; header.into()];
        bytes[0..2].copy_from_slice(&size.to_le_bytes());
        bytes[2..4].copy_from_slice(&(!size).to_le_bytes());
        bytes[5] = channel;
        bytes[7] = header;
        bytes[9] = self.credit;
        bytes.extend(body);
        self.queued.push_back(bytes);
    }

    /// A frame will come.
    pub fn frame(&mut self, frame: &[u8]) {
        let mut body = vec![0x20, 0, 0, 0];
        body.extend(frame);
        self.queue(DATA, 14, &body);
    }

    /// An event will come, with the bytes of its report after the four numbers.
    pub fn event(&mut self, kind: u32, status: u32, flags: u16, report: &[(usize, &[u8])]) {
        let mut body = vec![0; 300];
        let event = &mut body[32..];
        event[2..4].copy_from_slice(&flags.to_be_bytes());
        event[4..8].copy_from_slice(&kind.to_be_bytes());
        event[8..12].copy_from_slice(&status.to_be_bytes());
        for (at, bytes) in report {
            event[*at..at + bytes.len()].copy_from_slice(bytes);
        }
        self.queue(EVENT, 12, &body);
    }

    /// A network will be heard.
    pub fn network(&mut self, n: u8) {
        let ssid = format!("network number {n}");
        let rssi = (-40 - i16::from(n)).to_le_bytes();
        let report: [(usize, &[u8]); 5] = [
            (68, &[2, 0, 0, 0, 1, n]),
            (78, &[ssid.len() as u8]),
            (79, ssid.as_bytes()),
            (132, &[1 + n % 11, 0]),
            (138, &rssi),
        ];
        self.event(69, 8, 0, &report);
    }

    fn transfer(&mut self, n: u16) -> Vec<u32> {
        let mut bytes = vec![0; 4];
        bytes.extend(self.queued.pop_front().expect("no packet was told of"));
        bytes.resize(4 + usize::from(n).next_multiple_of(4), 0);
        let words = bytes.chunks(4).map(|w| u32::from_le_bytes(w.try_into().unwrap()));
        [0x3000_0000 | u32::from(n)].into_iter().chain(words).collect()
    }
}

impl Source for Radio {
    fn answer(&mut self, wish: &Wish) -> Vec<u32> {
        match *wish {
            Wish::Interrupt => {
                vec![0x1000_0000 | if self.queued.is_empty() { 0 } else { 0x20 }]
            }
            Wish::Status => {
                let there = |packet: &Vec<u8>| 0x100 | (packet.len() as u32) << 9;
                vec![0x2000_0000, 0x20 | self.queued.front().map_or(0, there)]
            }
            Wish::Packet(n) => self.transfer(n),
            Wish::Clock | Wish::Tick => {
                self.clock += 20;
                vec![wish.kind() << 28, self.clock as u32, (self.clock >> 32) as u32]
            }
            _ => vec![0x6000_0000],
        }
    }

    /// A request's reply has its numbers, status 0 and as many bytes.
    fn seen(&mut self, wish: &Wish) {
        let Wish::Write(bytes) = wish else { return };
        self.credit = bytes[4].wrapping_add(10);
        if bytes[5] == CONTROL {
            let size = usize::from(u16::from_le_bytes([bytes[0], bytes[1]]));
            let mut body = bytes[12..size].to_vec();
            body[12..16].fill(0);
            self.queue(CONTROL, 12, &body);
        }
    }
}
