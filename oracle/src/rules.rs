//! Where a request of document 02 has the port depart from the Rust, and what is compared there.

use crate::{CallResult, call};

/// The progress mark's place among a call's numbers: `scan_in_progress` in the state's bytes.
const SCAN_IN_PROGRESS: usize = 6;

/// What the driver says of a scan status other than 0 and 8.
const SCAN_FAILED: &str = "CYW43: [SCAN] escan status={}";

pub struct Rule {
    /// The request that asks for it.
    pub request: &'static str,
    /// Which calls it is for, by what the Rust made of them.
    pub when: fn(&CallResult) -> bool,
    /// Which of the call's numbers are left out,
    pub left_out: &'static [usize],
    /// and what each is by the request instead, from the call and the Rust's number.
    pub instead: fn(u32, u64) -> u64,
    /// Whether the call is the last of its session that is compared.
    pub ends: bool,
}

impl Rule {
    /// Puts what the request says into the Rust's numbers of a call, if there are any.
    pub fn follow(&self, call: u32, numbers: &mut [u64]) {
        for &place in self.left_out {
            if let Some(n) = numbers.get_mut(place) {
                *n = (self.instead)(call, *n);
            }
        }
    }
}

pub static RULES: [Rule; 1] = [
    // 'Any scan status other than 0 and 8 now ends a scan too: it clears the progress mark [...]. Against the Rust, sessions are
    // compared up to the first such status.' A scan hears one only where the mark is 0, and sets it when it is answered, as in the Rust.
    Rule {
        request: "P2",
        when: |result| result.said.contains_key(SCAN_FAILED) && !result.rolled_back(),
        left_out: &[SCAN_IN_PROGRESS],
        instead: |call, rust| if call == call::SCAN { rust } else { 0 },
        ends: true,
    },
];

/// The rules for a call that the Rust ended so.
pub fn rules_for(result: &CallResult) -> impl Iterator<Item = &'static Rule> {
    RULES.iter().filter(|rule| (rule.when)(result))
}

/// The rule of a request.
pub fn rule_of(request: &str) -> Option<&'static Rule> {
    RULES.iter().find(|rule| rule.request == request)
}
