//! Reading the next answer of a recording.

use crate::wish::{self, Wish};

/// A bus fault's place in `DevError`.
#[derive(Clone, Copy, Debug, PartialEq, Eq)]
pub struct Fault(pub u8);

/// What an operation was given.
#[derive(Clone, Copy, Debug, PartialEq, Eq)]
pub enum Given {
    Done,
    /// Interrupt bits, status word, clock or tick.
    Number(u64),
    /// The whole transfer of a packet read: the words after the head.
    Transfer,
}

/// How many words the record that begins with this head takes, bad bits or not.
#[inline]
pub fn record_words(head: u32) -> usize {
    match head >> 28 {
        wish::STATUS => 2,
        wish::PACKET => 2 + (head as usize & 0xffff).div_ceil(4),
        wish::CLOCK | wish::TICK => 3,
        _ => 1,
    }
}

/// Bits of a head that must be zero.
#[inline]
fn unused(kind: u32) -> u32 {
    match kind {
        wish::INTERRUPT | wish::PACKET => 0x0fff_0000,
        _ => 0x0fff_ffff,
    }
}

const FAULT: u32 = 7;

/// The next answer for `wish`: the words it takes and what it gives,
/// or the refusal 8 or 9.
#[inline(always)]
pub fn read(wish: &Wish, rest: &[u32]) -> Result<(usize, Result<Given, Fault>), u32> {
    let &head = rest.first().ok_or(8u32)?;
    let words = record_words(head);
    if rest.len() < words {
        return Err(8);
    }

    let kind = head >> 28;
    let timed = matches!(wish, Wish::Clock | Wish::Tick);
    if kind == FAULT && !timed {
        let place = head & 0x0fff_ffff;
        return if place < 10 { Ok((words, Err(Fault(place as u8)))) } else { Err(9) };
    }

    let wanted = match wish.kind() {
        wish::INTERRUPT_WRITE | wish::FRAME_CONTROL => wish::WRITE,
        own => own,
    };
    if kind != wanted || head & unused(kind) != 0 {
        return Err(9);
    }

    let given = match wish {
        Wish::Interrupt => Given::Number((head & 0xffff).into()),
        Wish::Status => Given::Number(rest[1].into()),
        Wish::Clock | Wish::Tick => Given::Number(u64::from(rest[1]) | u64::from(rest[2]) << 32),
        Wish::Packet(n) => {
            if head & 0xffff != u32::from(*n) {
                return Err(9);
            }
            Given::Transfer
        }
        Wish::Write(_) | Wish::InterruptWrite(_) | Wish::FrameControl(_) => Given::Done,
        Wish::Wait(_) => unreachable!("a wait takes no answer"),
    };
    Ok((words, Ok(given)))
}
