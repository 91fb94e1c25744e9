//! A bus operation and its log words.

/// Kinds of log words.
pub const INTERRUPT: u32 = 1;
pub const STATUS: u32 = 2;
pub const PACKET: u32 = 3;
pub const CLOCK: u32 = 4;
pub const TICK: u32 = 5;
pub const WRITE: u32 = 6;
pub const INTERRUPT_WRITE: u32 = 8;
pub const FRAME_CONTROL: u32 = 9;
pub const WAIT: u32 = 10;

#[derive(Clone, Copy, Debug, PartialEq, Eq)]
pub enum Wish<'a> {
    Interrupt,
    Status,
    Packet(u16),
    Clock,
    Tick,
    Write(&'a [u8]),
    InterruptWrite(u16),
    FrameControl(u8),
    /// Nanoseconds.
    Wait(u32),
}

impl Wish<'_> {
    #[inline(always)]
    pub fn kind(&self) -> u32 {
        match self {
            Wish::Interrupt => INTERRUPT,
            Wish::Status => STATUS,
            Wish::Packet(_) => PACKET,
            Wish::Clock => CLOCK,
            Wish::Tick => TICK,
            Wish::Write(_) => WRITE,
            Wish::InterruptWrite(_) => INTERRUPT_WRITE,
            Wish::FrameControl(_) => FRAME_CONTROL,
            Wish::Wait(_) => WAIT,
        }
    }

    #[inline(always)]
    fn low(&self) -> u32 {
        match *self {
            Wish::Packet(n) => n.into(),
            Wish::Write(bytes) => bytes.len() as u32,
            Wish::InterruptWrite(value) => value.into(),
            Wish::FrameControl(value) => value.into(),
            Wish::Wait(ns) => ns,
            _ => 0,
        }
    }

    /// How many log words the operation takes.
    #[inline(always)]
    pub fn len(&self) -> usize {
        match self {
            Wish::Write(bytes) => 1 + bytes.len().div_ceil(4),
            _ => 1,
        }
    }

    pub fn is_empty(&self) -> bool {
        false
    }

    #[inline(always)]
    pub fn put(&self, log: &mut Vec<u32>) {
        let low = self.low();
        assert!(low < 1 << 28, "an operation's number above 28 bits");
        log.push(self.kind() << 28 | low);
        if let Wish::Write(bytes) = self {
            let (words, last) = bytes.as_chunks::<4>();
            log.extend(words.iter().map(|w| u32::from_le_bytes(*w)));
            if !last.is_empty() {
                let mut word = [0; 4];
                word[..last.len()].copy_from_slice(last);
                log.push(u32::from_le_bytes(word));
            }
        }
    }
}
