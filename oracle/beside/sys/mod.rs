pub mod device_driver;
pub mod interrupt;
pub mod scheduler;
pub mod synchronization;
