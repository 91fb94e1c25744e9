//! What the oracle shows of the driver, as plain numbers.

/// Every state field that is compared.
#[derive(Clone, Copy, Debug, PartialEq, Eq)]
pub struct State {
    pub packet_tx_seq: u8,
    pub last_bus_data_credit: u8,
    pub wlan_flow_control: u8,
    pub requested_ioctl_id: u8,
    pub had_successful_packet: bool,
    pub pending_ioctl_resp: Option<Reply>,
    pub pending_rx: Option<Held>,
    pub scan_done: bool,
    pub scan_in_progress: bool,
    /// In `WifiState` order.
    pub state: u8,
    pub connect_failure: Option<Failure>,
    /// In `WifiAuth` order.
    pub current_auth: u8,
    pub disconnect_started_tick: Option<u64>,
}

/// A stored reply.
#[derive(Clone, Copy, Debug, PartialEq, Eq)]
pub struct Reply {
    pub offset: usize,
    pub len: usize,
    pub status: i32,
}

/// A waiting frame.
#[derive(Clone, Copy, Debug, PartialEq, Eq)]
pub struct Held {
    pub offset: usize,
    pub len: usize,
}

/// A connect failure: its place in `WifiConnectFailure`, 0 for the numbers it lacks.
#[derive(Clone, Copy, Debug, PartialEq, Eq)]
pub struct Failure {
    pub kind: u8,
    pub event: u32,
    pub status: u32,
    pub reason: u32,
}

/// A scan record.
#[derive(Clone, Copy, Debug, PartialEq, Eq)]
pub struct Record {
    pub ssid: [u8; 32],
    pub ssid_len: usize,
    pub bssid: [u8; 6],
    pub channel: u16,
    pub rssi: i16,
}

/// What the packet reader makes of the work buffer.
#[derive(Clone, Copy, Debug, PartialEq, Eq)]
pub enum Packet {
    None,
    Control { offset: usize, len: usize, status: i32 },
    Event { offset: usize, len: usize },
    Data { offset: usize, len: usize, interface: u8 },
}
