//! The proved driver, by its C entries.

use cyw43_oracle::{
    call::Call,
    player::LOG,
    state::{Record, State},
};

pub const SESSION: usize = 1393;
pub const UNDO: usize = 3444;
pub const BUFFER: usize = 2048;

macro_rules! entries {
    ($($name:ident($($arg:ident: $kind:ty),*);)*) => {
        unsafe extern "C" {
            $(fn $name(
                $($arg: $kind,)*
                session: *mut u8, session_len: usize, undo: *mut u8, undo_len: usize, rec: *const u32, rec_len: usize,
                log: *mut u32, log_len: usize, buf: *mut u8, buf_len: usize, result: *mut u64, result_len: usize,
            ) -> u32;)*
        }
    };
}

entries! {
    cyw43_init(country: u32);
    cyw43_scan();
    cyw43_join(auth: u32, ssid: *const u8, ssid_len: usize, passphrase: *const u8, passphrase_len: usize);
    cyw43_leave();
    cyw43_abort();
    cyw43_poll();
    cyw43_send(interface: u32, frame: *const u8, frame_len: usize);
    cyw43_gpio(pin: u32, level: u32);
    cyw43_mac();
    cyw43_get(cmd: u32, interface: u32);
    cyw43_set(cmd: u32, value: u32, interface: u32);
    cyw43_variable(interface: u32, name: *const u8, name_len: usize, bytes: *const u8, bytes_len: usize);
    cyw43_up();
}

unsafe extern "C" {
    fn cyw43_fresh(session: *mut u8, session_len: usize) -> u32;
    fn cyw43_take(
        session: *mut u8,
        session_len: usize,
        buf: *const u8,
        buf_len: usize,
        out: *mut u8,
        out_len: usize,
        result: *mut u64,
        result_len: usize,
    ) -> u32;
}

/// What the caller of the C entries lends.
pub struct Port {
    pub session: Box<[u8; SESSION]>,
    undo: Box<[u8; UNDO]>,
    pub buf: Box<[u8; BUFFER]>,
    pub log: Box<[u32; LOG]>,
    pub result: [u64; 2],
}

impl Port {
    pub fn new() -> Self {
        let mut session = Box::new([0; SESSION]);
        let refused = unsafe { cyw43_fresh(session.as_mut_ptr(), SESSION) };
        assert_eq!(refused, 0, "no fresh session");
        Self {
            session,
            undo: Box::new([0; UNDO]),
            buf: Box::new([0; BUFFER]),
            log: Box::new([0; LOG]),
            result: [0; 2],
        }
    }

    /// One call; gives its refusal.
    #[inline(always)]
    pub fn call(&mut self, call: &Call, rec: &[u32], out: &mut [u8]) -> u32 {
        let session = self.session.as_mut_ptr();
        let undo = self.undo.as_mut_ptr();
        let buf = self.buf.as_mut_ptr();
        let log = self.log.as_mut_ptr();
        let result = self.result.as_mut_ptr();
        macro_rules! enter {
            ($name:ident $(, $arg:expr)*) => {
                $name($($arg,)* session, SESSION, undo, UNDO, rec.as_ptr(), rec.len(), log, LOG, buf, BUFFER, result, 2)
            };
        }
        unsafe {
            match *call {
                Call::Init { country } => enter!(cyw43_init, country),
                Call::Scan => enter!(cyw43_scan),
                Call::Join { auth, ssid, passphrase } => {
                    enter!(
                        cyw43_join,
                        auth.into(),
                        ssid.as_ptr(),
                        ssid.len(),
                        passphrase.as_ptr(),
                        passphrase.len()
                    )
                }
                Call::Leave => enter!(cyw43_leave),
                Call::Abort => enter!(cyw43_abort),
                Call::Poll => enter!(cyw43_poll),
                Call::Send { interface, frame } => {
                    enter!(cyw43_send, interface.into(), frame.as_ptr(), frame.len())
                }
                Call::Take { length } => {
                    let out = &mut out[..length];
                    cyw43_take(session, SESSION, buf, BUFFER, out.as_mut_ptr(), length, result, 2)
                }
                Call::Gpio { pin, level } => enter!(cyw43_gpio, pin, level.into()),
                Call::Mac => enter!(cyw43_mac),
                Call::Get { command, interface } => enter!(cyw43_get, command, interface.into()),
                Call::Set { command, value, interface } => {
                    enter!(cyw43_set, command, value, interface.into())
                }
                Call::Variable { interface, name, data } => {
                    enter!(
                        cyw43_variable,
                        interface.into(),
                        name.as_ptr(),
                        name.len(),
                        data.as_ptr(),
                        data.len()
                    )
                }
                Call::Up => enter!(cyw43_up),
            }
        }
    }

    pub fn value(&self) -> u64 {
        self.result[0]
    }

    pub fn log(&self) -> &[u32] {
        &self.log[..self.result[1] as usize]
    }

    pub fn restore(&mut self, entry: &Port) {
        self.session.copy_from_slice(&entry.session[..]);
        self.buf.copy_from_slice(&entry.buf[..]);
    }
}

impl Clone for Port {
    fn clone(&self) -> Self {
        let mut port = Self::new();
        port.restore(self);
        port
    }
}

/// The bytes of a session with this state and these records; those of records that are not there are left out.
pub fn session_bytes(s: &State, records: &[Record]) -> Vec<u8> {
    let mut bytes = vec![
        s.packet_tx_seq,
        s.last_bus_data_credit,
        s.wlan_flow_control,
        s.requested_ioctl_id,
        s.had_successful_packet.into(),
        s.scan_done.into(),
        s.scan_in_progress.into(),
    ];
    let reply =
        s.pending_ioctl_resp.map_or((0, 0, 0, 0), |r| (1, r.offset as u16, r.len as u16, r.status));
    bytes.push(reply.0);
    bytes.extend(reply.1.to_le_bytes());
    bytes.extend(reply.2.to_le_bytes());
    bytes.extend(reply.3.to_le_bytes());
    let frame = s.pending_rx.map_or((0, 0, 0), |b| (1, b.offset as u16, b.len as u16));
    bytes.push(frame.0);
    bytes.extend(frame.1.to_le_bytes());
    bytes.extend(frame.2.to_le_bytes());
    bytes.extend([s.state, s.current_auth]);
    // Timeout is the seventh here, and the eighth in the Rust.
    let failure = s.connect_failure.map_or((0, 0, 0), |f| (1 + f.kind.min(6), f.status, f.reason));
    bytes.push(failure.0);
    bytes.extend(failure.1.to_le_bytes());
    bytes.extend(failure.2.to_le_bytes());
    let tick = s.disconnect_started_tick;
    bytes.push(tick.is_some().into());
    bytes.extend(tick.unwrap_or(0).to_le_bytes());
    bytes.extend((records.len() as u64).to_le_bytes());
    for r in records {
        bytes.extend(r.ssid);
        bytes.extend(r.bssid);
        bytes.extend([r.ssid_len as u8, r.channel as u8]);
        bytes.extend(r.rssi.to_le_bytes());
    }
    bytes
}
