//! Makes a session from a seed, by running it on the oracle.

use std::{cell::RefCell, rc::Rc};

use cyw43_oracle::{
    CallResult, Oracle,
    player::{LOG, Played},
};

use crate::{
    device::Device,
    plan::{self, Last},
    rng::Rng,
    session::{Session, Step},
    temper::{self, Temper},
};

/// Most calls of a session; a few are long, so that numbers of one byte wrap.
const CALLS: u64 = 60;
const LONG: u64 = 600;

fn capacity(rng: &mut Rng, temper: &Temper) -> usize {
    if !rng.once_in(temper.logs) {
        return LOG;
    }
    match rng.weighted(&[1, 4, 2]) {
        0 => 0,
        1 => rng.range(1, 30) as usize,
        _ => rng.range(30, 600) as usize,
    }
}

/// The session of this seed; `after` is told of every call and sees the oracle after it.
pub fn generate(seed: u64, after: &mut dyn FnMut(&Oracle, &Step, &CallResult)) -> Session {
    generate_on(&mut Oracle::new(), seed, after)
}

/// The same on an oracle that is fresh already.
pub fn generate_on(
    oracle: &mut Oracle,
    seed: u64,
    after: &mut dyn FnMut(&Oracle, &Step, &CallResult),
) -> Session {
    let mut rng = Rng::new(seed ^ 0x5ee5_10a5);
    let temper = temper::choose(&mut rng);
    let device = Rc::new(RefCell::new(Device::new(Rng::new(rng.draw()), temper)));
    let mut session = Session::default();
    let mut last = Last::default();

    let most = if rng.once_in(50) { LONG } else { CALLS };
    for _ in 0..rng.range(1, most) {
        let state = oracle.state();
        let again = last.refusal == 8 && rng.percent(40);
        let (call, args) = match session.steps.last() {
            Some(step) if again => (step.played.call, step.played.args.clone()),
            before => {
                let call = plan::next_call(&mut rng, last, before.is_none());
                (call, plan::arguments(&mut rng, &temper, call, &state))
            }
        };
        let capacity = capacity(&mut rng, &temper);
        let mut played = Played { call, args, recording: Vec::new() };
        let mut out = vec![0; played.output()];
        device.borrow_mut().begin(call, &state);
        let (result, recording) =
            oracle.call_live(call, &played.args, device.clone(), capacity, &mut out);
        played.recording = recording;
        if rng.once_in(20) && played.recording.len() < 4000 {
            // Answers left over change nothing.
            played.recording.extend((0..rng.range(1, 4)).map(|_| rng.word()));
            if result.refusal == 8 {
                played.recording.truncate(result.used);
            }
        }
        let step = Step { played, capacity };
        after(oracle, &step, &result);
        last = Last { call, refusal: result.refusal, value: result.value };
        session.steps.push(step);
        if result.panic.is_some() {
            break;
        }
    }
    session
}
