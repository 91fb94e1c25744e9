//! The bus as document 01 tells it: operations ("wishes") go into a log of words, answers
//! come from a recording of words. One tape plays on each thread at a time.

mod answer;
mod play;
mod wish;

pub use answer::{Fault, Given, record_words};
pub use play::{Source, Stop, Tape, before_first_wish, left, line, load, rewind, take};
pub use play::{
    clock, frame_control, interrupt, interrupt_write, packet, status, tick, wait, write,
};
pub use wish::Wish;
