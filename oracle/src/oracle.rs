//! One driver, its calls and all that they leave.

use std::{cell::RefCell, collections::BTreeMap, rc::Rc};

use tape::{Source, Tape};

use crate::{
    call::Call,
    caught::{self, Caught},
    drivers::wlan::cyw43::pio_ctrl::{Driver, Value, WORK},
    state::{Failure, Packet, Record, State},
    sys::device_driver::DevError,
};

/// Stands for a panic that is no refusal.
pub const PANIC: u32 = u32::MAX;

#[derive(Clone, Debug, Default, PartialEq, Eq)]
pub struct CallResult {
    /// 0 for success; `PANIC` where the driver panicked in another way.
    pub refusal: u32,
    /// The player's value.
    pub value: u64,
    /// What a poll with value 2 tells.
    pub failure: Option<Failure>,
    pub log: Vec<u32>,
    /// Words of the recording that were used.
    pub used: usize,
    /// The message and place of another panic.
    pub panic: Option<String>,
    /// The driver's own log lines by their format strings, and how often each was said.
    pub said: BTreeMap<&'static str, u64>,
}

impl CallResult {
    /// Whether state, list and buffer are as at entry, by the tape's 8, 9 and 12.
    pub fn rolled_back(&self) -> bool {
        matches!(self.refusal, 8 | 9 | 12)
    }
}

pub struct Oracle {
    driver: Driver,
}

impl Default for Oracle {
    fn default() -> Self {
        Self::new()
    }
}

impl Clone for Oracle {
    fn clone(&self) -> Self {
        let mut other = Self::new();
        other.restore(self);
        other
    }
}

fn refusal(error: DevError) -> u32 {
    match error {
        DevError::InvalidArg => 1,
        DevError::Timeout => 2,
        DevError::Io => 3,
        DevError::Busy => 4,
        DevError::WouldBlock => 5,
        DevError::NoMem => 6,
        other => panic!("the driver has no such error of its own: {other:?}"),
    }
}

impl Oracle {
    /// A fresh state and a zeroed buffer.
    pub fn new() -> Self {
        Self { driver: Driver::new() }
    }

    /// One call. For take the output is `out`'s first bytes, as many as its argument says.
    pub fn call(
        &mut self,
        call: u32,
        args: &[u8],
        recording: &[u32],
        log_capacity: usize,
        out: &mut [u8],
    ) -> CallResult {
        self.call_over(WORK, call, args, recording, log_capacity, out)
    }

    /// The same over a work buffer of the given length: all but 2,048 are refused 13.
    pub fn call_over(
        &mut self,
        work: usize,
        call: u32,
        args: &[u8],
        recording: &[u32],
        log_capacity: usize,
        out: &mut [u8],
    ) -> CallResult {
        if work != WORK {
            return CallResult { refusal: 13, ..CallResult::default() };
        }
        self.play(call, args, Tape::recorded(recording, log_capacity), out).0
    }

    /// The same with the answers made while the call runs; gives the recording too.
    pub fn call_live(
        &mut self,
        call: u32,
        args: &[u8],
        source: Rc<RefCell<dyn Source>>,
        log_capacity: usize,
        out: &mut [u8],
    ) -> (CallResult, Vec<u32>) {
        self.play(call, args, Tape::live(source, log_capacity), out)
    }

    fn play(
        &mut self,
        number: u32,
        args: &[u8],
        mut tape: Tape,
        out: &mut [u8],
    ) -> (CallResult, Vec<u32>) {
        let Some(call) = Call::read(number, args) else {
            let refused = CallResult { refusal: 1, ..CallResult::default() };
            return (refused, tape.recording);
        };

        let entry = self.driver.keep();
        tape.lines = Some(BTreeMap::new());
        tape::load(tape);
        let ended = caught::run(|| self.driver.call(&call, out));
        let tape = tape::take();

        if let Err(Caught::Stopped(_)) = ended {
            self.driver.restore(&entry);
        }
        assert!(self.driver.left_out_is_untouched());
        let mut result = told(ended, tape.fault);
        result.log = tape.log;
        result.used = tape.used;
        result.said = tape.lines.unwrap_or_default();
        (result, tape.recording)
    }

    /// One call on the tape that is in, without roll-back: its refusal and value. A panic, and
    /// so the tape's 8, 9 and 12, goes to the caller.
    #[inline(always)]
    pub fn plain_call(&mut self, call: &Call, out: &mut [u8]) -> (u32, u64) {
        match self.driver.call(call, out) {
            Ok((value, _)) => (0, value),
            Err(error) => {
                let result = told(Ok(Err(error)), tape::left(|_, fault| fault));
                (result.refusal, result.value)
            }
        }
    }

    /// The packet reader alone: what it makes of the work buffer, or the refusal.
    pub fn read_packet(&mut self) -> Result<Packet, CallResult> {
        caught::run(|| self.driver.read_packet())
            .map(|packet| packet.expect("the packet reader has no errors"))
            .map_err(|caught| told(Err(caught), None))
    }

    /// The event reader alone, over the work buffer as it is.
    pub fn read_event(&mut self, offset: usize, len: usize) -> Result<(), CallResult> {
        caught::run(|| self.driver.read_event(offset, len))
            .map(|read| read.expect("the event reader has no errors"))
            .map_err(|caught| told(Err(caught), None))
    }

    /// Puts the driver where another stands.
    pub fn restore(&mut self, other: &Oracle) {
        self.driver.restore(&other.driver.keep());
    }

    pub fn state(&self) -> State {
        self.driver.state()
    }

    /// Puts the driver into any state.
    pub fn set_state(&mut self, state: &State) {
        self.driver.set_state(state);
    }

    pub fn buffer(&self) -> &[u8; WORK] {
        self.driver.buffer()
    }

    pub fn buffer_mut(&mut self) -> &mut [u8; WORK] {
        self.driver.buffer_mut()
    }

    pub fn records(&self) -> Vec<Record> {
        self.driver.records()
    }
}

/// The result without its log and lines. An error is the fault's own exactly when the last operation
/// was answered by a fault: after an ignored one the driver goes on with another operation.
fn told(ended: Result<Result<Value, DevError>, Caught>, fault: Option<u8>) -> CallResult {
    let mut result = CallResult::default();
    match ended {
        Ok(Ok((value, failure))) => {
            result.value = value;
            result.failure = failure;
        }
        Ok(Err(error)) => match fault {
            Some(place) => {
                assert_eq!(error as u8, place, "the fault's error came out changed");
                result.refusal = 7;
                result.value = place.into();
            }
            None => result.refusal = refusal(error),
        },
        Err(Caught::Stopped(n)) => result.refusal = n,
        Err(Caught::EventBeyondSize) => result.refusal = 10,
        Err(Caught::CopyPastBuffer) => result.refusal = 11,
        Err(Caught::Other(message)) => {
            result.refusal = PANIC;
            result.panic = Some(message);
        }
    }
    result
}
