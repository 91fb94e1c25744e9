//! Stands in for `rp235x_pac`: the timer that the driver reads, and names of the rest.

use std::cell::Cell;

pub struct PIO0;
pub struct RESETS;

#[derive(Clone, Copy, Debug)]
pub enum Interrupt {
    None,
}

pub struct TIMER0;

pub struct Timer;
pub struct High;
pub struct Low;
pub struct Bits(u32);

static TIMER: Timer = Timer;

thread_local! {
    /// The clock reading under way, and how many of its three register reads are done.
    static READING: Cell<(u64, u8)> = const { Cell::new((0, 0)) };
}

impl TIMER0 {
    pub const fn ptr() -> *const Timer {
        &raw const TIMER
    }
}

impl Timer {
    pub fn timerawh(&self) -> High {
        High
    }

    pub fn timerawl(&self) -> Low {
        Low
    }
}

impl High {
    /// The first of high, low, high asks for the clock; the other two use its answer.
    pub fn read(&self) -> Bits {
        let (_, done) = READING.get();
        match done {
            0 => {
                let now = tape::clock();
                READING.set((now, 1));
                Bits((now >> 32) as u32)
            }
            2 => {
                let (now, _) = READING.replace((0, 0));
                Bits((now >> 32) as u32)
            }
            _ => panic!("timer read out of order: high after {done}"),
        }
    }
}

impl Low {
    pub fn read(&self) -> Bits {
        let (now, done) = READING.get();
        assert_eq!(done, 1, "timer read out of order: low");
        READING.set((now, 2));
        Bits(now as u32)
    }
}

impl Bits {
    pub fn bits(&self) -> u32 {
        self.0
    }
}
