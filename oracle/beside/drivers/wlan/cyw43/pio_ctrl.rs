//! The harness's way in: a child module of `cyw43` sees the private fields of `Cyw43Inner`.
//! (The PIO's control, whose name this file has, is left out.)

use heapless::Vec;

use super::{
    Cyw43Inner, PendingBuf, PendingIoctlResp,
    cyw43_ioctl::Interface,
    cyw43_sdpcm::{SdpcmPacket, WlcCmd},
};
use crate::{
    call::Call,
    drivers::gpio,
    net::core::{ScanResult, WifiAuth, WifiConnectFailure, WifiState, WlanPollResult},
    state::{Failure, Held, Packet, Record, Reply, State},
    sys::device_driver::DevError,
};

pub const WORK: usize = 2048;

/// The places of the scan options' padding in the work buffer.
const SCAN_PADDING: usize = 108;

pub struct Driver {
    inner: Box<Cyw43Inner>,
}

/// All that a call can change.
#[derive(Clone)]
pub struct Kept {
    state: State,
    buffer: [u8; WORK],
    records: Vec<ScanResult, 32>,
}

const AUTHS: [WifiAuth; 6] = [
    WifiAuth::Open,
    WifiAuth::WpaTkipPsk,
    WifiAuth::Wpa2AesPsk,
    WifiAuth::Wpa2MixedPsk,
    WifiAuth::Wpa3SaeAesPsk,
    WifiAuth::Wpa3Wpa2AesPsk,
];

const STATES: [WifiState; 4] =
    [WifiState::Down, WifiState::Connecting, WifiState::Connected, WifiState::Disconnecting];

const COMMANDS: [WlcCmd; 21] = [
    WlcCmd::Up,
    WlcCmd::SetInfra,
    WlcCmd::SetAuth,
    WlcCmd::GetBssid,
    WlcCmd::GetSsid,
    WlcCmd::SetSsid,
    WlcCmd::SetChannel,
    WlcCmd::Disassoc,
    WlcCmd::GetAntDiv,
    WlcCmd::SetAntDiv,
    WlcCmd::SetDtimPrd,
    WlcCmd::GetPm,
    WlcCmd::SetPm,
    WlcCmd::SetGMode,
    WlcCmd::SetWsec,
    WlcCmd::SetBand,
    WlcCmd::GetAssocList,
    WlcCmd::SetWpaAuth,
    WlcCmd::GetVar,
    WlcCmd::SetVar,
    WlcCmd::SetWsecPmk,
];

fn command(number: u32) -> Option<WlcCmd> {
    COMMANDS.into_iter().find(|c| *c as u32 == number)
}

/// Whether the number is one of the driver's commands.
pub fn is_command(number: u32) -> bool {
    command(number).is_some()
}

/// The numbers of the driver's commands.
pub fn commands() -> impl Iterator<Item = u32> {
    COMMANDS.into_iter().map(|c| c as u32)
}

/// The driver takes `&str` and uses its length and bytes alone.
fn text(bytes: &[u8]) -> &str {
    unsafe { std::str::from_utf8_unchecked(bytes) }
}

fn failure_out(f: WifiConnectFailure) -> Failure {
    use WifiConnectFailure as F;
    match f {
        F::AuthFailed { status, reason } => Failure { kind: 0, event: 0, status, reason },
        F::AssocFailed { status, reason } => Failure { kind: 1, event: 0, status, reason },
        F::SetSsidFailed { status, reason } => Failure { kind: 2, event: 0, status, reason },
        F::PskFailed { status, reason } => Failure { kind: 3, event: 0, status, reason },
        F::Pruned { status, reason } => Failure { kind: 4, event: 0, status, reason },
        F::Deauthenticated { reason } => Failure { kind: 5, event: 0, status: 0, reason },
        F::Disassociated { reason } => Failure { kind: 6, event: 0, status: 0, reason },
        F::Timeout => Failure { kind: 7, event: 0, status: 0, reason: 0 },
        F::Unknown { event, status, reason } => Failure { kind: 8, event, status, reason },
    }
}

fn failure_in(f: Failure) -> WifiConnectFailure {
    use WifiConnectFailure as F;
    let Failure { kind, event, status, reason } = f;
    match kind {
        0 => F::AuthFailed { status, reason },
        1 => F::AssocFailed { status, reason },
        2 => F::SetSsidFailed { status, reason },
        3 => F::PskFailed { status, reason },
        4 => F::Pruned { status, reason },
        5 => F::Deauthenticated { reason },
        6 => F::Disassociated { reason },
        7 => F::Timeout,
        _ => F::Unknown { event, status, reason },
    }
}

/// A call's value, with poll's failure.
pub type Value = (u64, Option<Failure>);

impl Driver {
    /// A fresh state; the bus counts as up, so that `wifi_on` is `wifi_init_sta` alone.
    pub fn new() -> Self {
        static PINS: NoPins = NoPins;
        let mut inner = Box::new(Cyw43Inner::new(&PINS, 0, 0, 0, 0));
        inner.bus_is_up = true;
        // The driver reads its header through a pointer to a struct of 16-bit numbers.
        assert_eq!(inner.spid_buf.as_ptr() as usize % 4, 0, "work buffer not aligned");
        Self { inner }
    }

    pub fn call(&mut self, call: &Call, out: &mut [u8]) -> Result<Value, DevError> {
        let d = &mut *self.inner;
        let done = |()| (0, None);
        match *call {
            Call::Init { country } => d.wifi_on(country).map(done),
            Call::Scan => {
                zero_scan_padding(d.spid_buf.as_mut_ptr());
                d.wifi_scan().map(done)
            }
            Call::Join { auth, ssid, passphrase } => {
                d.wifi_connect(text(ssid), text(passphrase), AUTHS[auth as usize]).map(done)
            }
            Call::Leave => d.wifi_disconnect().map(done),
            Call::Abort => d.wifi_abort_connect().map(done),
            Call::Poll => d.poll().map(|polled| match polled {
                WlanPollResult::None => (0, None),
                WlanPollResult::Rx => (1, None),
                WlanPollResult::ConnectFailed(f) => (2, Some(failure_out(f))),
            }),
            Call::Send { interface, frame } => {
                d.send_data(frame, Interface::from_u8(interface)).map(done)
            }
            Call::Take { length } => {
                d.get_rx_buf(&mut out[..length]).map(|length| (length as u64, None))
            }
            Call::Gpio { pin, level } => d.gpio_set(pin as usize, level).map(done),
            Call::Mac => d.get_mac_addr().map(|mac| {
                let value = mac.iter().fold(0, |v, &b| v << 8 | u64::from(b));
                (value, None)
            }),
            Call::Get { command: c, interface } => d
                .get_ioctl_u32(command(c).unwrap(), Interface::from_u8(interface))
                .map(|value| (value.into(), None)),
            Call::Set { command: c, value, interface } => {
                d.set_ioctl_u32(command(c).unwrap(), value, Interface::from_u8(interface)).map(done)
            }
            Call::Variable { interface, name, data } => {
                d.write_iovar_n(text(name), data, Interface::from_u8(interface)).map(done)
            }
            Call::Up => d.wlc_up().map(done),
        }
    }

    /// The packet reader alone, over the work buffer as it is.
    pub fn read_packet(&mut self) -> Result<Packet, DevError> {
        self.inner.sdpcm_process_rx_packet(0).map(|packet| match packet {
            SdpcmPacket::None => Packet::None,
            SdpcmPacket::Control { offset, len, status } => Packet::Control { offset, len, status },
            SdpcmPacket::AsyncEvent { offset, len } => Packet::Event { offset, len },
            SdpcmPacket::Data { offset, len, interface } => {
                Packet::Data { offset, len, interface: interface as u8 }
            }
            SdpcmPacket::Unexpected(_) => unreachable!("never built"),
        })
    }

    /// The event reader alone, over the work buffer as it is.
    pub fn read_event(&mut self, offset: usize, len: usize) -> Result<(), DevError> {
        self.inner.handle_async_event(offset, len)
    }

    pub fn state(&self) -> State {
        let d = &*self.inner;
        State {
            packet_tx_seq: d.packet_tx_seq,
            last_bus_data_credit: d.last_bus_data_credit,
            wlan_flow_control: d.wlan_flow_control,
            requested_ioctl_id: d.requested_ioctl_id,
            had_successful_packet: d.had_successful_packet,
            pending_ioctl_resp: d.pending_ioctl_resp.map(|r| Reply {
                offset: r.buf.offset,
                len: r.buf.len,
                status: r.status,
            }),
            pending_rx: d.pending_rx.map(|b| Held { offset: b.offset, len: b.len }),
            scan_done: d.scan_done,
            scan_in_progress: d.scan_in_progress,
            state: STATES.into_iter().position(|s| s == d.state).unwrap() as u8,
            connect_failure: d.connect_failure.map(failure_out),
            current_auth: AUTHS.into_iter().position(|a| a == d.current_auth).unwrap() as u8,
            disconnect_started_tick: d.disconnect_started_tick,
        }
    }

    pub fn set_state(&mut self, s: &State) {
        let d = &mut *self.inner;
        d.packet_tx_seq = s.packet_tx_seq;
        d.last_bus_data_credit = s.last_bus_data_credit;
        d.wlan_flow_control = s.wlan_flow_control;
        d.requested_ioctl_id = s.requested_ioctl_id;
        d.had_successful_packet = s.had_successful_packet;
        d.pending_ioctl_resp = s.pending_ioctl_resp.map(|r| PendingIoctlResp {
            buf: PendingBuf { offset: r.offset, len: r.len },
            status: r.status,
        });
        d.pending_rx = s.pending_rx.map(|b| PendingBuf { offset: b.offset, len: b.len });
        d.scan_done = s.scan_done;
        d.scan_in_progress = s.scan_in_progress;
        d.state = STATES[s.state as usize];
        d.connect_failure = s.connect_failure.map(failure_in);
        d.current_auth = AUTHS[s.current_auth as usize];
        d.disconnect_started_tick = s.disconnect_started_tick;
    }

    pub fn buffer(&self) -> &[u8; WORK] {
        &self.inner.spid_buf
    }

    pub fn buffer_mut(&mut self) -> &mut [u8; WORK] {
        &mut self.inner.spid_buf
    }

    pub fn records(&self) -> std::vec::Vec<Record> {
        let out = |r: &ScanResult| Record {
            ssid: r.ssid,
            ssid_len: r.ssid_len,
            bssid: r.bssid,
            channel: r.channel,
            rssi: r.rssi,
        };
        self.inner.scan_results.iter().map(out).collect()
    }

    pub fn keep(&self) -> Kept {
        Kept {
            state: self.state(),
            buffer: self.inner.spid_buf,
            records: self.inner.scan_results.clone(),
        }
    }

    pub fn restore(&mut self, kept: &Kept) {
        self.set_state(&kept.state);
        self.inner.spid_buf = kept.buffer;
        self.inner.scan_results = kept.records.clone();
    }

    /// What the driver keeps of the bring-up that is left out; no call may change it.
    pub fn left_out_is_untouched(&self) -> bool {
        let d = &*self.inner;
        d.bus_is_up && d.startup_t0 == 0 && d.sdpcm_seq == 0
    }
}

/// Has the two padding bytes of the scan options zeroed just before the scan's first
/// operation. By then the driver has laid the options and read nothing over them.
fn zero_scan_padding(buffer: *mut u8) {
    fn zero(at: *mut u8) {
        unsafe { at.cast::<[u8; 2]>().write_volatile([0; 2]) }
    }
    tape::before_first_wish(zero, unsafe { buffer.add(SCAN_PADDING) });
}

struct NoPins;

impl gpio::interface::Gpio for NoPins {
    fn eable(&self, _: &gpio::Pin, _: bool) {}
    fn set_function(&self, _: &gpio::Pin, _: gpio::Function) {}
    fn set_pull(&self, _: &gpio::Pin, _: gpio::Pull) {}
    fn set_direction(&self, _: &gpio::Pin, _: gpio::Direction, _: bool) {}
    fn set_level(&self, _: &gpio::Pin, _: gpio::Level) {}
    fn get_level(&self, _: &gpio::Pin) -> gpio::Level {
        gpio::Level::Low
    }
    fn set_input_hysteresis(&self, _: &gpio::Pin, _: bool) {}
    fn pin_config(&self, _: usize, _: gpio::Function, _: gpio::Pull, _: Option<gpio::Direction>) {}
    fn enable_irq(&self, _: &gpio::Pin, _: gpio::GpioIrqTrigger, _: u32) {}
    fn register_irq_handler(&self, _: &gpio::Pin, _: Option<gpio::GpioIrqHandler>) {}
}
