//! The port's text and the Rust's, call by call: equal but for what the rules leave out.

use std::{collections::BTreeMap, fmt};

use crate::{
    call::NAMES,
    player::number_line,
    rules::{Rule, rule_of},
};

/// A call's lines.
#[derive(Clone, Copy, Debug, PartialEq, Eq)]
struct Block<'a> {
    /// The player's line: call, refusal, value, state, sequence, credit, flow, id, log words.
    first: &'a str,
    log: &'a str,
    /// The further line of `--numbers`, where there is one.
    numbers: &'a str,
}

impl Block<'_> {
    fn call(&self) -> u32 {
        self.first.split(' ').next().and_then(|n| n.parse().ok()).unwrap_or(0)
    }

    fn numbers(&self) -> Vec<u64> {
        self.numbers.split_whitespace().filter_map(|n| n.parse().ok()).collect()
    }
}

/// A text, read from its front.
struct Text<'a> {
    rest: &'a str,
    numbers: bool,
}

impl<'a> Text<'a> {
    /// The next n lines.
    fn lines(&mut self, n: usize) -> &'a str {
        let mut ends = self.rest.match_indices('\n').map(|(at, _)| at + 1);
        let end = if n == 0 { 0 } else { ends.nth(n - 1).unwrap_or(self.rest.len()) };
        let (lines, rest) = self.rest.split_at(end);
        self.rest = rest;
        lines
    }

    fn block(&mut self) -> Option<Block<'a>> {
        let first = Some(self.lines(1)).filter(|line| !line.is_empty())?;
        let words = first.split_whitespace().nth(8).and_then(|n| n.parse().ok()).unwrap_or(0);
        Some(Block { first, log: self.lines(words), numbers: self.lines(self.numbers.into()) })
    }

    /// The rest of the next line, if it begins so.
    fn after(&mut self, word: &str) -> Option<&'a str> {
        self.rest.starts_with(word).then(|| self.lines(1)[word.len()..].trim())
    }
}

/// What came of a rule.
#[derive(Clone, Copy, Debug, Default, PartialEq, Eq)]
pub struct Used {
    pub calls: u64,
    /// Calls in which what is left out differs.
    pub different: u64,
}

#[derive(Clone, Debug, Default, PartialEq, Eq)]
pub struct Compared {
    pub sessions: u64,
    pub calls: u64,
    /// Calls after the last of their session that is compared.
    pub left: u64,
    /// Rules by their requests.
    pub rules: BTreeMap<&'static str, Used>,
    /// Session, call, both from 1 on, and what differs there first.
    pub different: Vec<(u64, u64, String)>,
}

/// What differs in a call that is compared by these rules.
fn difference(ours: &Block, rust: &Block, rules: &[&Rule]) -> Option<String> {
    let told = |what: &str, ours: &str, rust: &str| {
        Some(format!("{what}: {} here, {} in the Rust", ours.trim(), rust.trim()))
    };
    if ours.first != rust.first {
        return told("its line", ours.first, rust.first);
    }
    if ours.log != rust.log {
        let mut words = ours.log.lines().zip(rust.log.lines());
        let (a, b) = words.find(|(a, b)| a != b).unwrap_or(("cut", "whole"));
        return told("its log", a, b);
    }
    let mut wanted = rust.numbers();
    rules.iter().for_each(|rule| rule.follow(rust.call(), &mut wanted));
    let plain = ours.numbers.is_empty() && rust.numbers.is_empty();
    if plain || ours.numbers == number_line(&wanted) {
        return None;
    }
    let found = ours.numbers();
    let place = (0..wanted.len()).find(|&n| found.get(n) != Some(&wanted[n]));
    let rule = rules.iter().find(|rule| place.is_some_and(|n| rule.left_out.contains(&n)));
    let (place, by) = (place.unwrap_or(wanted.len()), rule.map_or("the Rust", |r| r.request));
    let shown = |numbers: &[u64]| numbers.get(place).map_or("none".into(), u64::to_string);
    Some(format!("number {place}: {} here, {} by {by}", shown(&found), shown(&wanted)))
}

/// Compares two texts of the same sessions. The Rust's has the lines of `--rules`; `numbers`: both have those of `--numbers`.
pub fn compare(ours: &str, rust: &str, numbers: bool) -> Compared {
    let (mut ours, mut rust) = (Text { rest: ours, numbers }, Text { rest: rust, numbers });
    let mut found = Compared::default();
    let (mut call, mut over) = (0, false);
    loop {
        while rust.after("session").is_some() || found.sessions == 0 {
            found.sessions += 1;
            (call, over) = (0, false);
        }
        let (here, there) = (ours.block(), rust.block());
        let rules: Vec<_> =
            std::iter::from_fn(|| rust.after("rule ")).map(|r| rule_of(r).unwrap()).collect();
        call += 1;
        let (Some(here), Some(there)) = (here, there) else {
            if here != there {
                found.different.push((found.sessions, call, "one text ends here".into()));
            }
            return found;
        };
        if over {
            found.left += 1;
            continue;
        }
        found.calls += 1;
        for rule in &rules {
            let used = found.rules.entry(rule.request).or_default();
            used.calls += 1;
            let (a, b) = (here.numbers(), there.numbers());
            used.different += u64::from(rule.left_out.iter().any(|&n| a.get(n) != b.get(n)));
        }
        over = rules.iter().any(|rule| rule.ends);
        if let Some(what) = difference(&here, &there, &rules) {
            let name = NAMES.get(there.call() as usize).unwrap_or(&"no call");
            found.different.push((found.sessions, call, format!("{name}, {what}")));
            over = true;
        }
    }
}

impl fmt::Display for Compared {
    fn fmt(&self, f: &mut fmt::Formatter<'_>) -> fmt::Result {
        write!(f, "sessions {}, calls compared {}, left {}", self.sessions, self.calls, self.left)?;
        for (request, used) in &self.rules {
            write!(
                f,
                "; by {request} {}, of which {} differ in what is left out",
                used.calls, used.different
            )?;
        }
        for (session, call, what) in &self.different {
            write!(f, "\nsession {session}, call {call}: {what}")?;
        }
        Ok(())
    }
}
