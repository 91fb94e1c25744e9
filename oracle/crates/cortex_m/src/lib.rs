//! Stands in for `cortex_m`: a delay is a wait of 10 ns for each cycle.
//!
//! The driver's `delay_ms` counts 100,000 cycles for a millisecond and its `delay_ns` one
//! cycle for each 10 ns, rounded up; every wait of the driver is a multiple of 10 ns, so
//! the product is exactly the nominal time.

pub mod asm {
    pub fn delay(cycles: u32) {
        tape::wait(cycles.checked_mul(10).expect("a wait above 32 bits of ns"));
    }

    pub fn nop() {}
}

pub mod interrupt {
    pub struct CriticalSection;

    pub fn free<R>(f: impl FnOnce(&CriticalSection) -> R) -> R {
        f(&CriticalSection)
    }
}
