//! The four calls through the linked library: document 01's worked run, and each number that a caller may see.
use piszczalin::{raw, start, Choice, Cycles, Entry, Refusal, Speed, State, Ticks, Volts};

// A table of plain numbers.
fn table(
    periods: &[u64],
    reserves: &[u64],
    speeds: &[u64],
    volts: &[u64],
) -> Result<State, Refusal> {
    let periods: Vec<Ticks> = periods.iter().copied().map(Ticks).collect();
    let reserves: Vec<Cycles> = reserves.iter().copied().map(Cycles).collect();
    let speeds: Vec<Speed> = speeds.iter().copied().map(Speed).collect();
    let volts: Vec<Volts> = volts.iter().copied().map(Volts).collect();
    start(&periods, &reserves, &speeds, &volts)
}

// The fresh state of document 01's worked run.
fn paper() -> State {
    table(
        &[8, 10, 14],
        &[300, 300, 100],
        &[50, 75, 100],
        &[30, 40, 50],
    )
    .expect("admitted")
}

// An entry of a report: 0 for no finish.
fn entry(cycles: u64) -> Entry {
    Entry::finished_after(Cycles(cycles)).unwrap_or(Entry::NO_FINISH)
}

// The next state of a tick with these entries, and its grants.
fn ticked(state: &State, report: &[u64]) -> Result<(State, Vec<Cycles>), Refusal> {
    let report: Vec<Entry> = report.iter().copied().map(entry).collect();
    let mut grants = vec![Cycles(u64::MAX); report.len()];
    let result = state.tick(&report, &mut grants);
    if result.is_err() {
        assert!(
            grants.iter().all(|&grant| grant == Cycles(u64::MAX)),
            "a refused tick wrote a grant"
        );
    }
    result.map(|next| (next, grants))
}

#[test]
fn the_worked_run() {
    let mut state = paper();
    let rows: [([u64; 3], u64, [u64; 3]); 6] = [
        ([0, 0, 0], 75, [75, 0, 0]),
        ([0, 0, 0], 75, [75, 0, 0]),
        ([200, 0, 0], 75, [50, 25, 0]),
        ([0, 100, 0], 75, [0, 75, 0]),
        ([0, 0, 0], 50, [0, 0, 50]),
        ([0, 0, 100], 50, [0, 0, 50]),
    ];
    for (tick, (report, speed, granted)) in (0..).zip(rows) {
        assert_eq!(state.done(), Ticks(tick));
        assert_eq!(state.now().expect("sound").speed, Speed(speed));
        let (next, grants) = ticked(&state, &report).expect("accepted");
        assert_eq!(grants, granted.map(Cycles));
        state = next;
    }
    assert_eq!(state.now().expect("sound").choice, Choice::Nothing);
    assert_eq!(
        state.tally().counts[..3],
        [Cycles(100), Cycles(300), Cycles(0)]
    );
    assert_eq!(state.energy(), Ok(100 * 30 * 30 + 300 * 40 * 40));
}

#[test]
fn equal_deadlines_go_to_the_lower_number() {
    let state = table(&[4, 4], &[4, 4], &[1, 2], &[10, 20]).expect("admitted");
    let told = state.now().expect("sound");
    assert_eq!(
        told.choice,
        Choice::Task {
            number: 1,
            deadline: Ticks(4)
        }
    );
    assert_eq!(told.speed, Speed(2));
}

#[test]
fn the_reserve_as_an_entry_is_a_finish_and_no_entry_a_cut() {
    let state = table(&[1], &[50], &[50], &[10]).expect("admitted");
    let (finished, _) = ticked(&state, &[50]).expect("accepted");
    let (cut, _) = ticked(&state, &[0]).expect("accepted");
    assert_eq!((finished.tally().cut, cut.tally().cut), (0, 1));
}

#[test]
fn what_start_refuses() {
    let refused = |refusal: Refusal, answer: Result<State, Refusal>| {
        assert_eq!(answer, Err(refusal));
    };
    refused(Refusal::Tasks, table(&[], &[], &[1], &[1]));
    refused(Refusal::Tasks, table(&[1; 17], &[1; 17], &[100], &[1]));
    refused(Refusal::Tasks, table(&[1, 1], &[1], &[1], &[1]));
    refused(Refusal::Speeds, table(&[1], &[1], &[], &[]));
    refused(Refusal::Speeds, table(&[1], &[1], &[1], &[1, 1]));
    refused(Refusal::Period, table(&[0], &[1], &[1], &[1]));
    refused(Refusal::Reserve, table(&[1], &[1_000_000_001], &[1], &[1]));
    refused(Refusal::Speed, table(&[1], &[1], &[2, 2], &[1, 1]));
    refused(Refusal::Volts, table(&[1], &[1], &[1, 2], &[2, 1]));
    refused(
        Refusal::GreatPeriod,
        table(&[1000, 1001], &[1, 1], &[1], &[1]),
    );
    refused(Refusal::NotAdmitted, table(&[1], &[51], &[50], &[1]));
    refused(Refusal::Tasks, table(&[], &[0], &[], &[0]));
}

#[test]
fn a_grants_list_of_another_length_is_refused_and_not_written() {
    let report = [Entry::NO_FINISH; 3];
    for length in [0, 1, 2, 4, 17] {
        let mut grants = vec![Cycles(u64::MAX); length];
        assert_eq!(paper().tick(&report, &mut grants), Err(Refusal::Length));
        assert!(grants.iter().all(|&grant| grant == Cycles(u64::MAX)));
    }
}

#[test]
fn what_the_others_refuse() {
    let unsound = State::from_raw(raw::State::default());
    assert_eq!(unsound.now(), Err(Refusal::Unsound));
    assert_eq!(unsound.energy(), Err(Refusal::Unsound));
    assert_eq!(ticked(&unsound, &[0, 0, 0]), Err(Refusal::Unsound));

    let last = State::from_raw(raw::State {
        done: Ticks(1_000_000_000),
        ..*paper().as_raw()
    });
    assert_eq!(last.now(), Err(Refusal::RunDone));
    assert_eq!(last.energy(), Ok(0));
    assert_eq!(ticked(&last, &[0, 0, 0]), Err(Refusal::RunDone));

    assert_eq!(ticked(&paper(), &[]), Err(Refusal::Length));
    assert_eq!(ticked(&paper(), &[0; 17]), Err(Refusal::Length));
    assert_eq!(ticked(&paper(), &[76, 0, 0]), Err(Refusal::Entry));
    assert_eq!(ticked(&paper(), &[0, 1, 0]), Err(Refusal::Entry));
}

#[test]
fn the_refusals_are_numbered_1_to_13() {
    for (number, refusal) in (1..).zip(Refusal::ALL) {
        assert_eq!(refusal.number(), number);
        assert_eq!(Refusal::from_number(number), Some(refusal));
    }
    assert_eq!(Refusal::from_number(0), None);
    assert_eq!(Refusal::from_number(14), None);
    assert_eq!(
        Refusal::Entry.to_string(),
        "refused, 13: an entry breaks rule 4"
    );
}

#[test]
fn no_finish_after_no_cycles() {
    assert_eq!(Entry::finished_after(Cycles(0)), None);
    assert!(Entry::finished_after(Cycles(1)).is_some_and(|entry| entry != Entry::NO_FINISH));
}
