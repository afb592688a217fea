//! A state as bytes, and back.
use piszczalin::{start, Cycles, Entry, Refusal, Speed, State, Ticks, Volts};

// The place of the first mark, and of the first byte after the last.
const MARKS: core::ops::Range<usize> = 408..424;

// A state with a job that is over.
fn state() -> State {
    let fresh = start(
        &[Ticks(3), Ticks(5)],
        &[Cycles(7), Cycles(9)],
        &[Speed(11)],
        &[Volts(13)],
    );
    let finish = Entry::finished_after(Cycles(6)).expect("not 0");
    let report = [finish, Entry::NO_FINISH];
    fresh
        .expect("admitted")
        .tick(&report, &mut [Cycles(0); 2])
        .expect("accepted")
}

#[test]
fn there_and_back() {
    let bytes = state().to_bytes();
    assert_eq!(State::from_bytes(&bytes), state());
    assert_eq!(bytes[..8], [1, 0, 0, 0, 0, 0, 0, 0]);
    assert_eq!(bytes[MARKS][..3], [1, 0, 0]);
}

#[test]
fn every_byte_comes_back() {
    let bytes: [u8; State::BYTES] = core::array::from_fn(|i| (i % 251) as u8);
    let state = State::from_bytes(&bytes);
    assert_eq!(state.to_bytes(), bytes);
    // SAFETY: the struct has as many bytes and no padding; the header copies it as it lies in memory
    let memory: [u8; State::BYTES] = unsafe { core::mem::transmute(*state.as_raw()) };
    assert_eq!(memory, bytes);
    assert_eq!(state.energy(), Err(Refusal::Unsound));
}

#[test]
fn a_mark_is_0_or_1() {
    for place in MARKS {
        for byte in [2, 3, 127, 128, 254, 255] {
            let mut bytes = state().to_bytes();
            bytes[place] = byte;
            let state = State::from_bytes(&bytes);
            let mut grants = [Cycles(u64::MAX); 2];
            assert_eq!(state.now(), Err(Refusal::Unsound), "byte {place}");
            assert_eq!(state.energy(), Err(Refusal::Unsound), "byte {place}");
            let ticked = state.tick(&[Entry::NO_FINISH; 2], &mut grants);
            assert_eq!(ticked, Err(Refusal::Unsound), "byte {place}");
            assert_eq!(grants, [Cycles(u64::MAX); 2], "byte {place}");
            assert_eq!(state.as_raw().jobs.is_over(place - MARKS.start), None);
        }
    }
}

#[test]
fn a_mark_tells_whether_its_job_is_over() {
    let jobs = state().as_raw().jobs;
    assert_eq!(jobs.is_over(0), Some(true));
    assert_eq!(jobs.is_over(1), Some(false));
    assert_eq!(jobs.is_over(16), None);
}
