//! How deep a call goes below its caller: the stack is painted, and then looked at.

use std::{arch::asm, thread};

const STACK: usize = 1 << 20;
const PAINTED: usize = 1 << 18;
const PAINT: u64 = 0xa5a5_5a5a_c3c3_3c3c;

/// How many bytes below this function's frame `f` touched.
#[inline(never)]
pub fn depth<R>(f: impl FnOnce() -> R) -> (R, usize) {
    let top: usize;
    unsafe { asm!("mov {}, rsp", out(reg) top, options(nomem, nostack, preserves_flags)) };
    let top = top & !7;
    let mut at = top - PAINTED;
    while at < top {
        unsafe { (at as *mut u64).write_volatile(PAINT) };
        at += 8;
    }
    let given = f();
    let mut at = top - PAINTED;
    while at < top && unsafe { (at as *const u64).read_volatile() } == PAINT {
        at += 8;
    }
    (given, top - at)
}

/// Runs `f` on a thread whose stack is large enough to be painted.
pub fn on_known_stack<R: Send>(f: impl FnOnce() -> R + Send) -> R {
    thread::scope(|scope| {
        thread::Builder::new().stack_size(STACK).spawn_scoped(scope, f).unwrap().join().unwrap()
    })
}
