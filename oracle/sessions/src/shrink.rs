//! Makes a session smaller while it still ends in the same panic.

use cyw43_oracle::Oracle;

use crate::session::Session;

/// The panic that the session ends in, if any.
pub fn panic_of(session: &Session) -> Option<String> {
    let mut oracle = Oracle::new();
    session.steps.iter().find_map(|step| step.play(&mut oracle).0.panic)
}

/// Drops calls, then recording words, then makes numbers zero.
pub fn shrink(session: &Session) -> Session {
    let Some(message) = panic_of(session) else {
        return session.clone();
    };
    let same = |s: &Session| panic_of(s).as_ref() == Some(&message);
    let mut best = session.clone();
    loop {
        let before = best.clone();
        for at in (0..best.steps.len()).rev() {
            let mut less = best.clone();
            less.steps.remove(at);
            if same(&less) {
                best = less;
            }
        }
        for step in 0..best.steps.len() {
            for place in (0..best.steps[step].played.recording.len()).rev() {
                let mut less = best.clone();
                less.steps[step].played.recording.remove(place);
                if same(&less) {
                    best = less;
                    continue;
                }
                let mut less = best.clone();
                less.steps[step].played.recording[place] &= 0xf000_0000;
                if less != best && same(&less) {
                    best = less;
                }
            }
            for place in (0..best.steps[step].played.args.len()).rev() {
                let mut less = best.clone();
                less.steps[step].played.args.remove(place);
                if same(&less) {
                    best = less;
                }
            }
        }
        if best == before {
            return best;
        }
    }
}
