//! The static library in this process.

use crate::boundary::{bytes, put_words};
use crate::calls::Call;
use crate::library::Library;
use piszczalin::raw;
use std::io::Result;

pub struct Linked;

impl Library for Linked {
    fn answer(&mut self, calls: &[Call], answers: &mut Vec<u8>) -> Result<()> {
        for call in calls {
            one(call, answers);
        }
        Ok(())
    }

    fn end(self: Box<Self>) -> Result<()> {
        Ok(())
    }
}

/// One call.
fn one(call: &Call, answers: &mut Vec<u8>) {
    match call {
        Call::Start(lists) => answers.extend_from_slice(bytes(&start(lists))),
        Call::Now(state) => answers.extend_from_slice(bytes(&now(*state))),
        Call::Tick {
            state,
            report,
            grants,
        } => {
            let mut grants = grants.clone();
            let lent = grants.len() - 1;
            let ticked = tick(*state, report, &mut grants[..lent]);
            answers.extend_from_slice(bytes(&ticked));
            put_words(answers, &grants);
        }
        Call::Energy(state) => answers.extend_from_slice(bytes(&energy(*state))),
    }
}

pub fn start([periods, reserves, speeds, volts]: &[Vec<u64>; 4]) -> raw::Started {
    // SAFETY: each pointer is to a list of the length given with it.
    unsafe {
        raw::piszczalin_start(
            periods.as_ptr(),
            periods.len(),
            reserves.as_ptr(),
            reserves.len(),
            speeds.as_ptr(),
            speeds.len(),
            volts.as_ptr(),
            volts.len(),
        )
    }
}

pub fn now(state: raw::State) -> raw::Told {
    // SAFETY: the state goes by value, and may be of any bytes.
    unsafe { raw::piszczalin_now(state) }
}

pub fn tick(state: raw::State, report: &[u64], grants: &mut [u64]) -> raw::Ticked {
    // SAFETY: the state goes by value; each pointer is to a list of the length given with it, and the grants are lent to no one else.
    unsafe {
        raw::piszczalin_tick(
            state,
            report.as_ptr(),
            report.len(),
            grants.as_mut_ptr(),
            grants.len(),
        )
    }
}

pub fn energy(state: raw::State) -> raw::Used {
    // SAFETY: the state goes by value, and may be of any bytes.
    unsafe { raw::piszczalin_energy(state) }
}
