//! Stands in for the scheduler: its tick comes from the tape.

pub fn get_sys_tick() -> u64 {
    tape::tick()
}
