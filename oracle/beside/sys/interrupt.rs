//! Stands in for interrupts, which are left out.

pub type IrqNumber = u32;

pub mod interface {
    pub trait IrqHandler {
        fn handler(&self) -> Result<(), &'static str>;
    }
}

pub struct IrqManager;

impl IrqManager {
    pub fn enable(&self, _on: bool) {}
}

pub fn irq_manager() -> &'static IrqManager {
    &IrqManager
}
