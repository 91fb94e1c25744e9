//! A session: calls with their recordings and log capacities, and its file.

use cyw43_oracle::{
    CallResult, Oracle,
    player::{Input, LOG, Played},
};

#[derive(Clone, Debug, PartialEq, Eq)]
pub struct Step {
    pub played: Played,
    pub capacity: usize,
}

#[derive(Clone, Debug, Default, PartialEq, Eq)]
pub struct Session {
    pub steps: Vec<Step>,
}

fn bytes(words: impl IntoIterator<Item = u32>) -> Vec<u8> {
    words.into_iter().flat_map(u32::to_le_bytes).collect()
}

impl Session {
    /// The player's input: the calls alone.
    pub fn input(&self) -> Vec<u8> {
        bytes(self.steps.iter().flat_map(|s| s.played.words()))
    }

    /// A session file: before each call's words, 0xE0000000 + its log capacity.
    pub fn file(&self) -> Vec<u8> {
        bytes(self.steps.iter().flat_map(|s| {
            let mut words = vec![0xe000_0000 + s.capacity as u32];
            words.extend(s.played.words());
            words
        }))
    }

    pub fn read(file: &[u8]) -> Option<Self> {
        let mut input = Input(file);
        let mut steps = Vec::new();
        while !input.is_empty() {
            let capacity = input.word()?.checked_sub(0xe000_0000)? as usize;
            steps.push(Step { played: input.call()?, capacity });
        }
        Some(Self { steps })
    }

    /// Whether every call has the player's log, so that the player plays the same.
    pub fn is_plain(&self) -> bool {
        self.steps.iter().all(|s| s.capacity == LOG)
    }
}

impl Step {
    /// Plays the step; gives the result and the output's bytes.
    pub fn play(&self, oracle: &mut Oracle) -> (CallResult, Vec<u8>) {
        let p = &self.played;
        let mut out = vec![0; p.output()];
        let result = oracle.call(p.call, &p.args, &p.recording, self.capacity, &mut out);
        (result, out)
    }
}
