//! Panics of the driver, caught and told apart.

use std::{
    cell::{Cell, RefCell},
    panic::{self, AssertUnwindSafe},
    sync::Once,
};

use tape::Stop;

/// How a run of the driver ended other than by returning.
#[derive(Clone, Debug, PartialEq, Eq)]
pub enum Caught {
    /// 8, 9 or 12, by the tape.
    Stopped(u32),
    /// 10: an event's header beyond its size.
    EventBeyondSize,
    /// 11: a copied part past the work buffer.
    CopyPastBuffer,
    /// Any other panic: message and place.
    Other(String),
}

#[derive(Clone, Default)]
struct Panic {
    message: String,
    file: String,
    line: u32,
}

thread_local! {
    static CATCHING: Cell<bool> = const { Cell::new(false) };
    static LAST: RefCell<Panic> = RefCell::default();
}

static HOOK: Once = Once::new();

/// Keeps the message of a panic that is being caught; others go the usual way.
fn hook() {
    HOOK.call_once(|| {
        let usual = panic::take_hook();
        panic::set_hook(Box::new(move |info| {
            if !CATCHING.get() {
                return usual(info);
            }
            let at = info.location().expect("panics have a place");
            let message = match info.payload_as_str() {
                Some(text) => text.to_string(),
                None => "no message".to_string(),
            };
            let file = at.file().rsplit('/').next().unwrap_or_default().to_string();
            LAST.set(Panic { message, file, line: at.line() });
        }));
    });
}

const SDPCM: &str =
    include_str!(concat!(env!("OUT_DIR"), "/rust/src/drivers/wlan/cyw43/cyw43_sdpcm.rs"));

/// Whether the line of cyw43_sdpcm.rs is the subtraction of the event's length.
fn is_event_length(line: u32) -> bool {
    let lines: Vec<_> = SDPCM.lines().collect();
    let at = line as usize - 1;
    lines[at].trim() == "let payload_len = size - payload_offset;"
        && lines[at - 2].trim() == "ASYNCEVENT_HEADER => {"
}

impl Panic {
    fn told_apart(self) -> Caught {
        let subtraction = self.message == "attempt to subtract with overflow";
        if subtraction && self.file == "cyw43_sdpcm.rs" && is_event_length(self.line) {
            return Caught::EventBeyondSize;
        }
        // The frame's copy is indexed in the driver; the reply's `copy_within` panics in the
        // library's own file, and it is the driver's only one over a slice of 2,048 bytes.
        let range = self.message.starts_with("range end index ")
            && self.message.ends_with(" out of range for slice of length 2048");
        if range && (self.file == "cyw43_inner.rs" || self.file == "index.rs") {
            return Caught::CopyPastBuffer;
        }
        Caught::Other(format!("{} ({}:{})", self.message, self.file, self.line))
    }
}

/// Runs `f`; a panic in it is given back.
pub fn run<R>(f: impl FnOnce() -> R) -> Result<R, Caught> {
    hook();
    let before = CATCHING.replace(true);
    let result = panic::catch_unwind(AssertUnwindSafe(f));
    CATCHING.set(before);
    result.map_err(|payload| match payload.downcast_ref::<Stop>() {
        Some(stop) => Caught::Stopped(stop.0),
        None => LAST.take().told_apart(),
    })
}
