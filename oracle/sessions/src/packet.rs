//! Packets a radio could send, and such as none should.

use crate::{rng::Rng, temper::Temper};

/// A packet read: what the status word counts, and what came.
#[derive(Clone, Debug)]
pub struct Incoming {
    pub count: usize,
    pub bytes: Vec<u8>,
}

/// What the maker of a packet knows of the driver.
#[derive(Clone, Copy, Debug)]
pub struct View {
    /// The sequence number of the next send.
    pub sequence: u8,
    /// The credit last given.
    pub credit: u8,
    /// The id of the last request.
    pub id: u8,
    /// The payload length of the request that awaits its reply.
    pub awaited: Option<usize>,
    pub temper: Temper,
}

/// The most that one read can bring.
pub const MOST: usize = 1536;

struct Header {
    size: usize,
    channel: u8,
    h: u8,
}

const EVENTS: [u32; 17] = [0, 1, 3, 5, 6, 7, 11, 12, 16, 23, 46, 49, 69, 80, 87, 88, 69];

/// One scan result in this many, of those that are not chosen to bring a network, has another status than 0 and 8: a session is compared up to it.
const FAILED_SCAN: u64 = 24;
const FAILED_SCANS: [u32; 9] = [1, 2, 3, 4, 7, 9, u32::MAX, 0x0100_0000, 0x0800_0000];

pub fn make(rng: &mut Rng, view: &View) -> Incoming {
    let lies = rng.once_in(view.temper.lying);
    let reply = if view.awaited.is_some() { 60 } else { 4 };
    let events = if view.temper.crowded { 90 } else { 18 };
    let (header, body) = match rng.weighted(&[reply, events, 12, 1, 1]) {
        0 => control(rng, view, lies),
        1 => event(rng, view.temper.crowded, lies),
        2 => data(rng, lies),
        3 => other(rng),
        _ => return broken(rng, view),
    };
    let credit = credit(rng, view);
    lay(rng, header, body, credit, lies)
}

/// Mostly some room; at times none, or at the rule's limit.
fn credit(rng: &mut Rng, view: &View) -> u8 {
    if view.temper.tight && rng.percent(70) {
        return view.sequence.wrapping_add(rng.pick(&[0, 0, 1, 1, 2]));
    }
    match rng.weighted(&[80, 6, 6, 2]) {
        0 => view.sequence.wrapping_add(rng.range(1, 12) as u8),
        1 => view.sequence,
        2 => view.credit.wrapping_add(rng.pick(&[0, 1, 19, 20, 21, 22, 255, 128])),
        _ => rng.byte(),
    }
}

fn header_length(rng: &mut Rng, usual: u8, lies: bool) -> u8 {
    if !lies || rng.percent(60) {
        return usual;
    }
    rng.pick(&[0, 1, 4, 8, 11, 12, 13, 14, 16, 28, 100, 254, 255])
}

fn control(rng: &mut Rng, view: &View, lies: bool) -> (Header, Vec<u8>) {
    let asked = view.awaited.unwrap_or_else(|| rng.range(0, 40) as usize);
    let mut h = header_length(rng, 12, lies);
    let mut length = match rng.weighted(&[60, 10, 10, 10]) {
        0 => asked,
        1 => 0,
        2 => rng.range(0, 64) as usize,
        _ => asked + rng.range(0, 8) as usize,
    };
    // Replies whose copied part ends at the work buffer's end.
    if asked > 1700 && rng.percent(60) {
        h = rng.pick(&[255, 254, 250, 200, 12, 13]);
        let room = 2048usize.saturating_sub(usize::from(h) + 16);
        length = (room + rng.range(0, 2) as usize - 1).max(asked.min(room));
        if rng.percent(30) {
            length = asked;
        }
    }
    let id = match rng.weighted(&[if lies { 20 } else { 200 }, 2, 2, 1, 1]) {
        0 => u16::from(view.id),
        1 => u16::from(view.id).wrapping_sub(1),
        2 => u16::from(view.id).wrapping_add(1),
        3 => u16::from(view.id) + 256,
        _ => 0,
    };
    let status: i32 = match rng.weighted(&[if lies { 15 } else { 300 }, 1, 1, 1]) {
        0 => 0,
        1 => -1,
        2 => rng.pick(&[1, -23, i32::MIN, i32::MAX, 256]),
        _ => rng.word() as i32,
    };
    let mut body = rng.bytes(8);
    body.extend((u32::from(id) << 16 | rng.word() & 0xffff).to_le_bytes());
    body.extend(status.to_le_bytes());
    body.extend(rng.bytes(length.min(MOST)));
    let mut size = usize::from(h) + 16 + length;
    if lies && rng.percent(30) {
        size = (usize::from(h) + rng.pick(&[0, 1, 14, 15, 16, 17])).max(12);
    }
    (Header { size, channel: 0, h }, body)
}

/// BSSIDs and channels come from small sets, so that some are known already.
fn event(rng: &mut Rng, crowded: bool, lies: bool) -> (Header, Vec<u8>) {
    let h = header_length(rng, 12, lies);
    let mut body = vec![0; 172];
    if rng.percent(50) {
        body = rng.bytes(172);
    }
    let kind = match rng.weighted(&[30, if crowded { 300 } else { 10 }, 5, 1]) {
        0 => rng.pick(&EVENTS),
        1 => 69,
        2 => rng.below(101) as u32,
        _ => rng.word(),
    };
    let status = match (kind, rng.weighted(&[5, 3])) {
        (69, 0) => 8,
        (69, _) if crowded && rng.percent(90) => 8,
        (69, _) if rng.once_in(FAILED_SCAN) => rng.pick(&FAILED_SCANS),
        (69, _) => rng.pick(&[0, 0, 0, 8]),
        (46, 0) => 6,
        (_, 0) => 0,
        _ => rng.pick(&[0, 1, 2, 3, 4, 5, 6, 7, 8, 9, 10, 11, u32::MAX, 0x0600_0000]),
    };
    let reason = match rng.weighted(&[4, 4, 2]) {
        0 => 0,
        1 => rng.pick(&[1, 2, 3, 8, 14, 14, 15, 16]),
        _ => rng.word(),
    };
    let flags: u16 = rng.pick(&[0, 1, 0, 1, 2, 0x100, 0xffff]);
    body[32 + 2..32 + 4].copy_from_slice(&flags.to_be_bytes());
    body[32 + 4..32 + 8].copy_from_slice(&kind.to_be_bytes());
    body[32 + 8..32 + 12].copy_from_slice(&status.to_be_bytes());
    body[32 + 12..32 + 16].copy_from_slice(&reason.to_be_bytes());
    let last = rng.byte() % 48;
    body[32 + 68..32 + 74].copy_from_slice(&[2, 0, 0, 0, 0, last]);
    body[32 + 78] = rng.pick(&[0, 1, 5, 31, 32, 33, 255]);
    let channel: u16 = rng.pick(&[1, 6, 11, 0x101, 0x1006, 0xff]);
    body[32 + 132..32 + 134].copy_from_slice(&channel.to_le_bytes());
    let rssi = rng.pick(&[-40i16, -90, 0, 1, i16::MIN, i16::MAX]);
    body[32 + 138..32 + 140].copy_from_slice(&rssi.to_le_bytes());

    let length = if lies {
        rng.pick(&[0, 1, 16, 31, 32, 46, 47, 48, 49, 63, 100, 111, 112, 165, 170, 171, 172, 173])
    } else {
        rng.pick(&[172, 172, 172, 48, 47, 60, 200])
    };
    body.resize(length.max(1), 0x5a);
    let mut size = usize::from(h) + length;
    if lies && rng.percent(25) {
        size = usize::from(h).saturating_sub(rng.range(0, 2) as usize);
    }
    (Header { size: size.max(12), channel: 1, h }, body)
}

fn data(rng: &mut Rng, lies: bool) -> (Header, Vec<u8>) {
    let h = header_length(rng, rng.clone().pick(&[12, 14, 14]), lies);
    let offset = if lies { rng.pick(&[0, 0, 1, 2, 10, 255]) } else { rng.pick(&[0, 0, 0, 1]) };
    let length = match rng.weighted(&[40, 20, 10, 2]) {
        0 => rng.range(14, 120) as usize,
        1 => rng.pick(&[0, 1, 2, 12, 13, 14, 15, 59, 60, 61]),
        2 => rng.range(120, 1500) as usize,
        _ => rng.pick(&[1499, 1500, 1514, 1518]),
    };
    let mut body = vec![0x20, 0, rng.pick(&[0, 0, 0, 1, 2, 3, 255]), offset];
    body.extend(rng.bytes(usize::from(offset) * 4 + length));
    let whole = usize::from(h) + body.len();
    let size = match (lies, rng.weighted(&[3, 2, 2])) {
        (true, 0) => rng.pick(&[12, 13, 15, 16, 17, 18, 28, 29, 30, 31]),
        (true, 1) => usize::from(h) + 4 + usize::from(offset) * 4 - 1 + rng.range(0, 2) as usize,
        (true, _) => rng.pick(&[2047, 2048, 2049, 2050, 4096, 65535]),
        _ => whole,
    };
    (Header { size: size.max(12), channel: 2, h }, body)
}

fn other(rng: &mut Rng) -> (Header, Vec<u8>) {
    let length = rng.range(0, 64) as usize;
    let h = rng.pick(&[12, 12, 255, 0]);
    let channel = rng.range(3, 15) as u8;
    (Header { size: 12 + length, channel, h }, rng.bytes(length))
}

/// Lays header and body; a lying packet brings more or less than it declares.
fn lay(rng: &mut Rng, header: Header, body: Vec<u8>, credit: u8, lies: bool) -> Incoming {
    let h = usize::from(header.h);
    let mut bytes = vec![0; h.max(12) + body.len()];
    if rng.percent(20) {
        bytes = rng.bytes(bytes.len());
    }
    bytes[h..h + body.len()].copy_from_slice(&body);
    let size = header.size.min(65535) as u16;
    bytes[0..2].copy_from_slice(&size.to_le_bytes());
    bytes[2..4].copy_from_slice(&(!size).to_le_bytes());
    bytes[4] = rng.byte();
    bytes[5] = header.channel | if rng.percent(10) { rng.byte() & 0xf0 } else { 0 };
    bytes[6] = rng.byte();
    bytes[7] = header.h;
    bytes[8] = if rng.once_in(if lies { 10 } else { 60 }) { rng.byte() } else { 0 };
    bytes[9] = credit;
    bytes[10..12].fill(0);

    let mut count = header.size;
    if lies && rng.percent(50) {
        count = match rng.weighted(&[3, 3, 1, 1]) {
            0 => count.saturating_sub(rng.range(1, 40) as usize),
            1 => count + rng.range(1, 40) as usize,
            2 => rng.range(1, 16) as usize,
            _ => rng.range(1, MOST as u64) as usize,
        };
    }
    let count = count.clamp(1, MOST);
    if bytes.len() < count {
        let more = rng.bytes(count - bytes.len());
        bytes.extend(more);
    }
    bytes.truncate(count);
    Incoming { count, bytes }
}

/// An event with its header beyond its size.
pub fn beyond(rng: &mut Rng) -> Incoming {
    let h = rng.pick(&[13, 14, 60, 255]);
    let size = rng.range(12, u64::from(h) - 1) as usize;
    lay(rng, Header { size, channel: 1, h }, Vec::new(), 1, false)
}

/// Headers that are none.
fn broken(rng: &mut Rng, view: &View) -> Incoming {
    let count = rng.pick(&[1, 2, 3, 4, 5, 8, 11, 12, 13, 40, 1535, MOST]);
    let mut bytes = rng.bytes(count.max(12));
    let size = rng.pick(&[0u16, 1, 4, 11, 12, 13, 28, 0xffff, 0xfff3]);
    bytes[0..2].copy_from_slice(&size.to_le_bytes());
    let complement = match rng.weighted(&[3, 2, 1]) {
        0 => !size,
        1 => 0,
        _ => !size ^ 1 << rng.below(16),
    };
    bytes[2..4].copy_from_slice(&complement.to_le_bytes());
    bytes[5] = rng.byte() & 0x0f;
    bytes[8] = 0;
    bytes[9] = view.sequence.wrapping_add(3);
    bytes.truncate(count);
    Incoming { count, bytes }
}
