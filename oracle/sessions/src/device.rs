//! A radio and a board that answer a call's operations, mostly as real ones would.

use cyw43_oracle::state::State;
use tape::{Source, Wish};

use crate::{
    broken,
    packet::{self, Incoming, View},
    rng::Rng,
    temper::Temper,
};

/// The player's longest recording.
const RECORDING: usize = 4096;

/// The command of join's last request.
const SET_SSID: u32 = 26;

const STALL: u64 = 1_000_000;
const REPLY: u64 = 500_000;
const STARTUP: u64 = 150_000;

/// Clocks at which init's start-up wait ends or begins.
const STARTS: [u64; 8] =
    [0, 1, 149_999, 150_000, 150_001, (1 << 32) - 1, (1 << 32) + 149_999, (1 << 32) + 150_000];

pub struct Device {
    pub rng: Rng,
    temper: Temper,
    view: View,
    clock: u64,
    tick: u64,
    /// The clock where the wait under way began.
    began: Option<u64>,
    /// The tick that a disconnect under way began at.
    left: u64,
    queued: Option<Incoming>,
    /// Statuses left of a run, and whether it is one of 0xffffffff.
    run: (u32, bool),
    /// Packets this call still gets without being asked for a reply.
    spare: u64,
    /// Recording words of this call.
    words: usize,
    cut: bool,
    /// Whether the next status is asked for a write.
    writing: bool,
    call: u32,
    /// Whether the next packet is an event with its header beyond its size.
    beyond: bool,
    /// Whether the next answer but a clock's is a fault.
    faulty: bool,
}

impl Device {
    pub fn new(mut rng: Rng, temper: Temper) -> Self {
        let clock = match rng.weighted(&[3, 1, 1]) {
            0 => rng.below(200_000),
            1 => (1 << 32) - rng.below(400_000),
            _ => rng.draw(),
        };
        let tick = rng.pick(&[0, 5, 1_000, u64::MAX - 500, 0xffff_fe00]);
        Self {
            view: View { sequence: 0, credit: 1, id: 0, awaited: None, temper },
            rng,
            temper,
            clock,
            tick,
            began: None,
            left: tick,
            queued: None,
            run: (0, false),
            spare: 0,
            words: 0,
            cut: false,
            writing: false,
            call: 0,
            beyond: false,
            faulty: false,
        }
    }

    /// A new call begins, in a driver of this state.
    pub fn begin(&mut self, call: u32, state: &State) {
        self.call = call;
        self.left = state.disconnect_started_tick.unwrap_or(self.tick);
        self.beyond = false;
        self.faulty = false;
        self.writing = call != 6;
        self.view.sequence = state.packet_tx_seq;
        self.view.credit = state.last_bus_data_credit;
        self.view.id = state.requested_ioctl_id;
        self.view.awaited = None;
        self.began = None;
        self.queued = None;
        self.run = (0, false);
        self.spare = self.rng.pick(&[0, 1, 1, 2, 3, 6]);
        self.words = 0;
        self.cut = false;
    }

    fn interrupt(&mut self) -> u32 {
        match self.rng.weighted(&[80, 8, 2, 2, 1]) {
            0 => 0x20,
            1 => 0,
            2 => self.rng.pick(&[0x22, 0x24, 0xa0, 0x02, 0x80, 0x01, 0x100]),
            3 => 0x20 | self.rng.word() & 0xffff,
            _ => self.rng.word() & 0xffff,
        }
    }

    fn status(&mut self) -> u32 {
        let runs = if self.writing { self.temper.runs / 3 } else { self.temper.runs };
        if self.run.0 == 0 && self.rng.once_in(runs) {
            let length = self.rng.pick(&[1, 2, 3, 7, 998, 999, 1000, 1001, 1002]);
            self.run = (length, !self.writing && self.rng.percent(90));
        }
        if self.run.0 > 0 {
            self.run.0 -= 1;
            return if self.run.1 { u32::MAX } else { self.rng.word() & 0xfff0_00dc };
        }

        let noise = if self.rng.percent(10) { self.rng.word() & 0xfff0_00dd } else { 0 };
        if std::mem::take(&mut self.beyond) {
            self.queued = Some(packet::beyond(&mut self.rng));
        } else if self.queued.is_none() && self.comes() {
            self.queued = Some(packet::make(&mut self.rng, &self.view));
        }
        let Some(queued) = &self.queued else {
            return noise | self.rng.pick(&[0x20, 0x20, 0x20, 0x60, 0x0c_0020]);
        };
        let mut count = queued.count as u32;
        let mut underflow = 0;
        if self.rng.once_in(self.temper.lying * 4) {
            match self.rng.weighted(&[2, 1]) {
                0 => count = self.rng.pick(&[0, 1, 1535, 1536, 1537, 2047]),
                _ => underflow = 2,
            }
        }
        noise | 0x120 | underflow | count << 9
    }

    /// Whether a packet is there.
    fn comes(&mut self) -> bool {
        if self.view.awaited.is_some() {
            return self.rng.percent(90);
        }
        let comes = self.spare > 0;
        self.spare = self.spare.saturating_sub(1);
        comes || self.rng.percent(15)
    }

    fn transfer(&mut self, n: usize) -> Vec<u32> {
        let length = 4 + n.next_multiple_of(4);
        let mut bytes = match self.rng.percent(30) {
            true => self.rng.bytes(length),
            false => vec![0; length],
        };
        if let Some(queued) = self.queued.take() {
            let there = queued.bytes.len().min(n);
            bytes[4..4 + there].copy_from_slice(&queued.bytes[..there]);
            self.taken(&queued.bytes);
        }
        bytes.chunks(4).map(|c| u32::from_le_bytes(c.try_into().unwrap())).collect()
    }

    fn taken(&mut self, bytes: &[u8]) {
        if bytes.len() >= 12 && bytes[5] & 15 < 3 && bytes[9].wrapping_sub(self.view.credit) <= 20 {
            self.view.credit = bytes[9];
        }
        if bytes.len() >= 12 && bytes[5] & 15 == 0 && self.answers(bytes) {
            if self.view.awaited.take().is_some() {
                self.began = None;
            }
            self.writing = true;
        }
    }

    /// Whether a control packet has the id of the last request.
    fn answers(&self, bytes: &[u8]) -> bool {
        let h = usize::from(bytes[7]);
        bytes.get(h + 10..h + 12) == Some(&[self.view.id, 0])
    }

    /// Mostly a little later; at times at a limit of the wait under way, or backwards.
    fn clock(&mut self) -> u64 {
        let replying = self.view.awaited.is_some();
        let stalling = !replying && self.began.is_some();
        let step = self.rng.range(1, 3_000);
        let mut now = self.clock.wrapping_add(step);
        if self.call == 1 && !replying && !stalling && self.rng.percent(30) {
            now = self.rng.pick(&STARTS);
        } else if self.rng.once_in(self.temper.clocks.min(if stalling { 16 } else { u64::MAX })) {
            let began = self.began.unwrap_or(0);
            let limit = match self.rng.percent(80) {
                true if stalling => STALL,
                true if replying => REPLY,
                _ => self.rng.pick(&[STALL, REPLY, STARTUP]),
            };
            now = match self.rng.weighted(&[8, 1, 1]) {
                0 => began.wrapping_add(limit).wrapping_add(self.rng.range(0, 2)).wrapping_sub(1),
                1 => began.wrapping_sub(self.rng.range(1, 9)),
                _ => self.rng.draw(),
            };
        }
        self.began.get_or_insert(now);
        self.clock = now;
        now
    }

    fn tick(&mut self) -> u64 {
        let mut now = self.tick.wrapping_add(self.rng.range(0, 300));
        if self.rng.once_in(3) {
            now = self.left.wrapping_add(self.rng.pick(&[0, 998, 999, 1000, 1001, 5000, u64::MAX]));
        }
        self.tick = now;
        now
    }

    fn plausible(&mut self, wish: &Wish) -> Vec<u32> {
        let pair = |head: u32, n: u64| vec![head, n as u32, (n >> 32) as u32];
        match *wish {
            Wish::Interrupt => vec![0x1000_0000 | self.interrupt()],
            Wish::Status => vec![0x2000_0000, self.status()],
            Wish::Packet(n) => {
                let mut words = vec![0x3000_0000 | u32::from(n)];
                words.extend(self.transfer(n.into()));
                words
            }
            Wish::Clock => pair(0x4000_0000, self.clock()),
            Wish::Tick => pair(0x5000_0000, self.tick()),
            _ => vec![0x6000_0000],
        }
    }
}

impl Source for Device {
    fn answer(&mut self, wish: &Wish) -> Vec<u32> {
        if self.cut {
            return Vec::new();
        }
        let mut words = self.plausible(wish);
        let rate = match wish {
            Wish::FrameControl(_) => self.temper.broken / 10,
            _ => self.temper.broken,
        };
        if self.rng.once_in(rate) {
            self.cut = broken::spoil(&mut self.rng, &mut words);
        }
        if self.faulty && !matches!(wish, Wish::Clock) {
            self.faulty = false;
            words = vec![0x7000_0000 | self.rng.below(10) as u32];
        }
        if self.words + words.len() > RECORDING {
            self.cut = true;
            return Vec::new();
        }
        self.words += words.len();
        words
    }

    fn seen(&mut self, wish: &Wish) {
        if let Wish::Clock | Wish::Interrupt = wish {
            self.writing = false;
        }
        let Wish::Write(bytes) = wish else {
            return;
        };
        self.began = None;
        self.queued = None;
        self.view.sequence = bytes[4].wrapping_add(1);
        if bytes[5] == 0 {
            let size = usize::from(u16::from_le_bytes([bytes[0], bytes[1]]));
            // The request may lie under received bytes; the id goes up by one all the same.
            self.view.id = self.view.id.wrapping_add(1);
            self.view.awaited = Some(size.saturating_sub(28));
            let command = u32::from_le_bytes(bytes[12..16].try_into().unwrap());
            self.beyond = command == SET_SSID && self.rng.once_in(15);
            self.faulty = command == SET_SSID && self.rng.once_in(15);
        }
    }
}
