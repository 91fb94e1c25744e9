//! The fourteen calls and the tests of their arguments that the Rust's types make
//! unnecessary there.

use crate::drivers::wlan::cyw43::pio_ctrl::is_command;

pub const NAMES: [&str; 15] = [
    "", "init", "scan", "join", "leave", "abort", "poll", "send", "take", "gpio", "mac", "get",
    "set", "variable", "up",
];

/// The number of a scan.
pub const SCAN: u32 = 2;

/// Name, zero and data of a variable may have this many bytes.
const VARIABLE: usize = 2020;

#[derive(Clone, Copy, Debug, PartialEq, Eq)]
pub enum Call<'a> {
    Init { country: u32 },
    Scan,
    Join { auth: u8, ssid: &'a [u8], passphrase: &'a [u8] },
    Leave,
    Abort,
    Poll,
    Send { interface: u8, frame: &'a [u8] },
    Take { length: usize },
    Gpio { pin: u32, level: bool },
    Mac,
    Get { command: u32, interface: u8 },
    Set { command: u32, value: u32, interface: u8 },
    Variable { interface: u8, name: &'a [u8], data: &'a [u8] },
    Up,
}

fn word(args: &[u8], place: usize) -> Option<u32> {
    let bytes = args.get(4 * place..4 * place + 4)?;
    Some(u32::from_le_bytes(bytes.try_into().unwrap()))
}

fn interface(args: &[u8], place: usize) -> Option<u8> {
    word(args, place).filter(|&i| i <= 2).map(|i| i as u8)
}

fn command(args: &[u8]) -> Option<u32> {
    word(args, 0).filter(|&c| is_command(c))
}

/// The one word of a take's arguments.
pub fn take_length(args: &[u8]) -> Option<u32> {
    if args.len() == 4 { word(args, 0) } else { None }
}

impl<'a> Call<'a> {
    /// None for arguments that are refused 1 before the driver is called.
    pub fn read(number: u32, args: &'a [u8]) -> Option<Self> {
        let exactly = |n: usize| if args.len() == n { Some(()) } else { None };
        match number {
            1 => {
                exactly(4)?;
                Some(Call::Init { country: word(args, 0)? })
            }
            3 => {
                let auth = word(args, 0).filter(|&a| a <= 5)? as u8;
                let length = word(args, 1)? as usize;
                let rest = &args[8..];
                if length > rest.len() {
                    return None;
                }
                let (ssid, passphrase) = rest.split_at(length);
                Some(Call::Join { auth, ssid, passphrase })
            }
            7 => Some(Call::Send { interface: interface(args, 0)?, frame: &args[4..] }),
            8 => Some(Call::Take { length: take_length(args)? as usize }),
            9 => {
                exactly(8)?;
                Some(Call::Gpio { pin: word(args, 0)?, level: word(args, 1)? != 0 })
            }
            11 => {
                exactly(8)?;
                Some(Call::Get { command: command(args)?, interface: interface(args, 1)? })
            }
            12 => {
                exactly(12)?;
                Some(Call::Set {
                    command: command(args)?,
                    value: word(args, 1)?,
                    interface: interface(args, 2)?,
                })
            }
            13 => {
                let interface = interface(args, 0)?;
                let rest = &args[4..];
                let end = rest.iter().position(|&b| b == 0)?;
                if rest.len() > VARIABLE {
                    return None;
                }
                Some(Call::Variable { interface, name: &rest[..end], data: &rest[end + 1..] })
            }
            _ => {
                exactly(0)?;
                match number {
                    SCAN => Some(Call::Scan),
                    4 => Some(Call::Leave),
                    5 => Some(Call::Abort),
                    6 => Some(Call::Poll),
                    10 => Some(Call::Mac),
                    14 => Some(Call::Up),
                    _ => panic!("no call {number}"),
                }
            }
        }
    }
}
