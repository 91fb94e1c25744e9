//! Stands in for the PIO's SPI: command words become operations of the tape again.

use std::cell::Cell;

use rp235x_pac as pac;

use super::cyw43_regs::{SPI_FRAME_CONTROL, SPI_INTERRUPT_REGISTER, SPI_STATUS_REGISTER};
use crate::{drivers::gpio, sys::device_driver::DevError};

/// `DevError` in its own order.
const PLACES: [DevError; 10] = [
    DevError::Busy,
    DevError::NoSuchDevice,
    DevError::Unsupported,
    DevError::WouldBlock,
    DevError::Timeout,
    DevError::InvalidArg,
    DevError::Io,
    DevError::DevAlreadyInit,
    DevError::NoFreeDriverSlot,
    DevError::NoMem,
];

fn fault(f: tape::Fault) -> DevError {
    PLACES[f.0 as usize]
}

/// A command word's parts, as `Cyw43Bus::make_cmd` lays them.
struct Command {
    write: bool,
    func: u32,
    addr: u32,
    len: usize,
}

impl Command {
    #[inline(always)]
    fn read(bytes: &[u8]) -> Self {
        let word = u32::from_le_bytes(bytes[..4].try_into().unwrap());
        Self {
            write: word >> 31 != 0,
            func: word >> 28 & 3,
            addr: word >> 11 & 0x1_ffff,
            len: word as usize & 0x7ff,
        }
    }

    #[inline(always)]
    fn is(&self, write: bool, func: u32, addr: u32, len: usize) -> bool {
        self.write == write && self.func == func && self.addr == addr && self.len == len
    }

    #[cold]
    fn unknown(&self) -> ! {
        panic!(
            "unknown bus command: write {} func {} addr {:#x} len {}",
            self.write, self.func, self.addr, self.len
        )
    }
}

const BUS: u32 = 0;
const BACKPLANE: u32 = 1;
const WLAN: u32 = 2;

pub(super) struct PioSpi {
    /// The length in a packet write's command word, while its bytes are awaited.
    announced: Cell<Option<usize>>,
}

impl PioSpi {
    pub(super) const fn new(
        _gpio: &'static dyn gpio::interface::Gpio,
        _clk: usize,
        _dio: usize,
        _cs: usize,
    ) -> Self {
        Self { announced: Cell::new(None) }
    }

    pub(super) fn gpio_setup(&self) {}

    pub(super) fn init_hw(&mut self, _pio0: pac::PIO0, _resets: &mut pac::RESETS) {}

    pub(super) fn start_spi_comms(&self) {
        self.announced.set(None);
    }

    pub(super) fn stop_spi_comms(&self) {}

    /// The two parts of a packet write: its command word, then its bytes.
    #[inline(always)]
    pub(super) fn write_bytes(&mut self, tx_buf: &[u8]) -> Result<usize, DevError> {
        match self.announced.take() {
            None => {
                let cmd = Command::read(tx_buf);
                if tx_buf.len() != 4 || !cmd.write || cmd.func != WLAN || cmd.addr != 0 {
                    cmd.unknown();
                }
                self.announced.set(Some(cmd.len));
            }
            Some(len) => {
                assert_eq!(len, tx_buf.len(), "packet write: announced length");
                tape::write(tx_buf).map_err(fault)?;
            }
        }
        Ok(tx_buf.len())
    }

    /// A register read, a register write or a packet read.
    #[inline(always)]
    pub(super) fn transfer(&mut self, tx_buf: &[u8], rx_buf: &mut [u8]) -> Result<usize, DevError> {
        if tx_buf.is_empty() {
            self.read(rx_buf)
        } else {
            assert!(rx_buf.is_empty(), "swapped register reads are left out");
            self.write_register(tx_buf)
        }
    }

    #[inline(always)]
    fn read(&mut self, rx_buf: &mut [u8]) -> Result<usize, DevError> {
        let cmd = Command::read(rx_buf);
        if cmd.is(false, BUS, SPI_INTERRUPT_REGISTER, 2) {
            let bits = tape::interrupt().map_err(fault)?;
            rx_buf[4..8].copy_from_slice(&u32::from(bits).to_le_bytes());
        } else if cmd.is(false, BUS, SPI_STATUS_REGISTER, 4) {
            let status = tape::status().map_err(fault)?;
            rx_buf[4..8].copy_from_slice(&status.to_le_bytes());
        } else if !cmd.write && cmd.func == WLAN && cmd.addr == 0 {
            // All of the transfer lands: the recording has its first four bytes too.
            tape::packet(cmd.len as u16, rx_buf).map_err(fault)?;
        } else {
            cmd.unknown();
        }
        Ok(rx_buf.len())
    }

    #[inline(always)]
    fn write_register(&mut self, tx_buf: &[u8]) -> Result<usize, DevError> {
        let cmd = Command::read(tx_buf);
        if cmd.is(true, BUS, SPI_INTERRUPT_REGISTER, 2) {
            tape::interrupt_write(u16::from_le_bytes([tx_buf[4], tx_buf[5]])).map_err(fault)?;
        } else if cmd.is(true, BACKPLANE, SPI_FRAME_CONTROL, 1) {
            tape::frame_control(tx_buf[4]).map_err(fault)?;
        } else {
            cmd.unknown();
        }
        Ok(tx_buf.len())
    }
}
