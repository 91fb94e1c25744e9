//! The tape that plays on this thread, and the operations the shims ask of it.

use std::{
    cell::{Cell, RefCell},
    collections::BTreeMap,
    ops::Range,
    panic, ptr,
    rc::Rc,
};

use crate::{
    answer::{self, Fault, Given},
    wish::Wish,
};

/// The private payload of an unwinding that the tape starts: refusal 8, 9 or 12.
#[derive(Clone, Copy, Debug, PartialEq, Eq)]
pub struct Stop(pub u32);

/// Makes answers while a call runs: asked when the recording is used up.
pub trait Source {
    /// Words to append to the recording; with none, or too few, the call ends with 8.
    fn answer(&mut self, wish: &Wish) -> Vec<u32>;

    /// Told of every operation that was logged.
    fn seen(&mut self, _wish: &Wish) {}
}

#[derive(Default)]
pub struct Tape {
    /// Words of the recording used so far.
    pub used: usize,
    /// Words of the recording that are played.
    end: usize,
    pub recording: Vec<u32>,
    pub capacity: usize,
    pub log: Vec<u32>,
    /// The place of the fault that answered the last operation, if one did.
    pub fault: Option<u8>,
    pub source: Option<Rc<RefCell<dyn Source>>>,
    first: Option<(fn(*mut u8), *mut u8)>,
    /// Counts of the driver's own log lines, where wanted.
    pub lines: Option<BTreeMap<&'static str, u64>>,
}

thread_local! {
    /// The tape that is in: it is owned from here, by `load` and `take` alone.
    static PLAYING: Cell<*mut Tape> = const { Cell::new(ptr::null_mut()) };
}

/// The tape that is in. Nothing that runs while it is held asks for it again.
#[inline(always)]
fn playing<'a>() -> &'a mut Tape {
    unsafe { PLAYING.get().as_mut() }.expect("no tape is in")
}

/// Puts a tape in; one that was in is thrown away.
pub fn load(tape: Tape) {
    let before = PLAYING.replace(Box::into_raw(Box::new(tape)));
    if !before.is_null() {
        drop(unsafe { Box::from_raw(before) });
    }
}

/// Takes the tape out.
pub fn take() -> Tape {
    let tape = PLAYING.replace(ptr::null_mut());
    assert!(!tape.is_null(), "no tape is in");
    *unsafe { Box::from_raw(tape) }
}

/// Begins a call that plays these words of the tape that is in, with an empty log.
#[inline(always)]
pub fn rewind(words: &Range<usize>) {
    let tape = playing();
    tape.used = words.start;
    tape.end = words.end;
    tape.log.clear();
    tape.fault = None;
}

/// The log of the tape that is in, and the fault that answered the last operation.
pub fn left<R>(f: impl FnOnce(&[u32], Option<u8>) -> R) -> R {
    let tape = playing();
    f(&tape.log, tape.fault)
}

/// Has `f` run on `at` just before the next operation.
pub fn before_first_wish(f: fn(*mut u8), at: *mut u8) {
    playing().first = Some((f, at));
}

/// A line that the driver logs.
#[cfg(feature = "lines")]
#[inline(never)]
pub fn line(format: &'static str) {
    if let Some(tape) = unsafe { PLAYING.get().as_mut() }
        && let Some(lines) = &mut tape.lines
    {
        *lines.entry(format).or_default() += 1;
    }
}

/// Nothing is kept of the driver's lines.
#[cfg(not(feature = "lines"))]
#[inline(always)]
pub fn line(_format: &'static str) {}

impl Tape {
    /// A recording to be played from its start.
    pub fn recorded(recording: &[u32], capacity: usize) -> Self {
        let log = Vec::with_capacity(capacity);
        Tape {
            recording: recording.to_vec(),
            end: recording.len(),
            capacity,
            log,
            ..Tape::default()
        }
    }

    /// An empty recording that grows as the call asks.
    pub fn live(source: Rc<RefCell<dyn Source>>, capacity: usize) -> Self {
        Tape { source: Some(source), capacity, ..Tape::default() }
    }

    /// 12, then 8, then 9 or 7.
    #[inline(always)]
    fn play(&mut self, wish: &Wish) -> Result<Result<Given, Fault>, u32> {
        if let Some((f, at)) = self.first.take() {
            f(at);
        }
        if self.capacity - self.log.len() < wish.len() {
            return Err(12);
        }
        wish.put(&mut self.log);
        self.fault = None;
        if self.source.is_some() {
            self.watched(wish);
        }
        if let Wish::Wait(_) = wish {
            return Ok(Ok(Given::Done));
        }
        let (words, given) = answer::read(wish, &self.recording[self.used..self.end])?;
        self.used += words;
        if let Err(Fault(place)) = given {
            self.fault = Some(place);
        }
        Ok(given)
    }

    /// Tells the source, and has it answer where the recording is used up.
    #[cold]
    fn watched(&mut self, wish: &Wish) {
        let Some(source) = &self.source else { return };
        source.borrow_mut().seen(wish);
        if self.used == self.recording.len() && !matches!(wish, Wish::Wait(_)) {
            self.recording.extend(source.borrow_mut().answer(wish));
            self.end = self.recording.len();
        }
    }
}

/// The payload passes the driver by unwinding; no panic message is made.
#[cold]
fn stop(refusal: u32) -> ! {
    panic::resume_unwind(Box::new(Stop(refusal)))
}

#[inline(always)]
fn ask(wish: Wish) -> Result<Given, Fault> {
    playing().play(&wish).unwrap_or_else(|refusal| stop(refusal))
}

#[inline(always)]
fn number(given: Given) -> u64 {
    match given {
        Given::Number(n) => n,
        other => unreachable!("no number: {other:?}"),
    }
}

pub fn interrupt() -> Result<u16, Fault> {
    ask(Wish::Interrupt).map(|g| number(g) as u16)
}

pub fn status() -> Result<u32, Fault> {
    ask(Wish::Status).map(|g| number(g) as u32)
}

/// The whole transfer, 4 + n rounded up to 4 bytes, which `into` has room for exactly.
pub fn packet(n: u16, into: &mut [u8]) -> Result<(), Fault> {
    let words = 1 + usize::from(n).div_ceil(4);
    assert_eq!(into.len(), 4 * words, "packet read: the transfer's length");
    ask(Wish::Packet(n))?;
    let tape = playing();
    let transfer = &tape.recording[tape.used - words..tape.used];
    for (bytes, word) in into.chunks_exact_mut(4).zip(transfer) {
        bytes.copy_from_slice(&word.to_le_bytes());
    }
    Ok(())
}

pub fn clock() -> u64 {
    number(ask(Wish::Clock).expect("a clock has no fault"))
}

pub fn tick() -> u64 {
    number(ask(Wish::Tick).expect("a tick has no fault"))
}

pub fn write(bytes: &[u8]) -> Result<(), Fault> {
    ask(Wish::Write(bytes)).map(drop)
}

pub fn interrupt_write(value: u16) -> Result<(), Fault> {
    ask(Wish::InterruptWrite(value)).map(drop)
}

pub fn frame_control(value: u8) -> Result<(), Fault> {
    ask(Wish::FrameControl(value)).map(drop)
}

pub fn wait(ns: u32) {
    ask(Wish::Wait(ns)).expect("a wait has no fault");
}
