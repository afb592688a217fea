//! start, now, tick and energy against document 01.

mod plain;

use plain::Chance;
use second::{energy, now, sound, start, tick, State, LONGEST_RUN};

fn admitted(periods: &[u64], reserves: &[u64], speeds: &[u64], volts: &[u64]) -> State {
    let (number, state) = start(periods, reserves, speeds, volts);
    assert_eq!(number, 0);
    assert!(sound(&state));
    state
}

/// Document 002's Tables 2 and 3.
fn paper() -> State {
    admitted(
        &[8, 10, 14],
        &[300, 300, 100],
        &[50, 75, 100],
        &[30, 40, 50],
    )
}

fn accepted(state: &State, report: &[u64], expected: &[u64]) -> State {
    let mut grants = vec![u64::MAX; report.len()];
    let (number, next) = tick(state, report, &mut grants);
    assert_eq!(number, 0);
    assert_eq!(grants, expected);
    assert!(sound(&next));
    next
}

fn refused(state: &State, report: &[u64], grants: usize, expected: u64) {
    let mut lent = vec![77; grants];
    assert_eq!(tick(state, report, &mut lent), (expected, *state));
    assert!(lent.iter().all(|&grant| grant == 77));
}

#[test]
fn numbers_of_start() {
    let number = |p: &[u64], r: &[u64], s: &[u64], v: &[u64]| {
        let (number, state) = start(p, r, s, v);
        assert_eq!(number == 0, state != State::default());
        number
    };
    let ok: &[u64] = &[1];
    assert_eq!(number(ok, ok, ok, ok), 0);
    assert_eq!(number(&[], &[], ok, ok), 1);
    assert_eq!(number(&[1; 17], &[1; 17], &[20], ok), 1);
    assert_eq!(number(&[1; 16], &[1; 16], &[16], ok), 0);
    assert_eq!(number(&[1, 1], ok, &[9], ok), 1);
    assert_eq!(number(&[0], &[], &[], &[]), 1);
    assert_eq!(number(ok, ok, &[], &[]), 2);
    assert_eq!(number(ok, ok, &[1, 2, 3, 4, 5, 6, 7, 8, 9], &[1; 9]), 2);
    assert_eq!(number(ok, ok, &[1, 2, 3, 4, 5, 6, 7, 8], &[1; 8]), 0);
    assert_eq!(number(&[0], ok, ok, &[1, 1]), 2);
    assert_eq!(number(&[0], &[0], ok, ok), 3);
    assert_eq!(number(&[1_000_001], ok, ok, ok), 3);
    assert_eq!(number(&[u64::MAX], ok, ok, ok), 3);
    assert_eq!(number(&[1_000_000], ok, ok, ok), 0);
    assert_eq!(number(ok, &[0], &[0], ok), 4);
    assert_eq!(number(ok, &[1_000_000_001], ok, ok), 4);
    assert_eq!(number(&[1_000], &[1_000_000_000], &[1_000_000], ok), 0);
    assert_eq!(number(ok, ok, &[0], &[0]), 5);
    assert_eq!(number(ok, ok, &[1_000_001], ok), 5);
    assert_eq!(number(ok, ok, &[2, 2], &[1, 1]), 5);
    assert_eq!(number(ok, ok, &[3, 2], &[1, 0]), 5);
    assert_eq!(number(ok, ok, ok, &[0]), 6);
    assert_eq!(number(ok, ok, ok, &[101]), 6);
    assert_eq!(number(ok, ok, &[1, 2], &[5, 4]), 6);
    assert_eq!(number(ok, ok, &[1, 2], &[100, 100]), 0);
    assert_eq!(
        number(&[1_000, 1_001], &[1_000_000_000; 2], ok, &[0]),
        6,
        "6 before 7"
    );
    assert_eq!(number(&[1_000, 1_001], &[1_000_000_000; 2], ok, ok), 7);
    // A list of large coprime periods: the multiple would pass 64 bits.
    assert_eq!(
        number(&[999_983, 999_979, 999_961, 999_959], &[1; 4], &[9], ok),
        7
    );
    assert_eq!(number(&[1_000_000; 16], &[1_000_000_000; 16], ok, ok), 8);
}

/// Document 01, "Either side of the line", (a) and (i) to (l); (b) to (h) are in the
/// unit test of the loads.
#[test]
fn either_side_of_the_line() {
    assert_eq!(paper().great_period, 280);
    assert_eq!(start(&[1], &[50], &[50], &[1]).0, 0);
    assert_eq!(start(&[1], &[51], &[50], &[1]).0, 8);
    assert_eq!(start(&[1_000, 1_001], &[1, 1], &[1], &[1]).0, 7);
    let (number, state) = start(&[1_000, 1_000_000], &[1, 1], &[1], &[1]);
    assert_eq!((number, state.great_period), (0, 1_000_000));
}

#[test]
fn to_be_run() {
    // Equal periods: task 1 goes first.
    let state = admitted(&[4, 4], &[4, 4], &[2], &[10]);
    assert_eq!(now(&state), (0, Some((1, 4)), 2));
    accepted(&state, &[0, 0], &[2, 0]);
    // A report of length 0; a grants list too long.
    refused(&state, &[], 2, 11);
    refused(&state, &[0, 0], 3, 11);
    refused(&state, &[0, 0], 0, 11);
    // An entry equal to the reserve, against 0 in the same tick.
    let state = admitted(&[4], &[3], &[5], &[10]);
    let finished = accepted(&state, &[3], &[3]);
    let cut = accepted(&state, &[0], &[3]);
    assert_eq!((finished.cut, cut.cut), (0, 1));
    assert_eq!((finished.over[0], cut.over[0]), (true, true));
    assert_eq!((finished.run[0], finished.idle), (3, 2));
    // The all-zero state.
    let zero = State::default();
    assert!(!sound(&zero));
    assert_eq!(now(&zero), (9, None, 0));
    assert_eq!(energy(&zero), (9, 0));
    refused(&zero, &[], 0, 9);
}

#[test]
fn entries_of_rule_4() {
    let state = admitted(&[4, 8], &[6, 4], &[3], &[10]);
    refused(&state, &[7, 0], 2, 13); // above the reserve
    refused(&state, &[4, 0], 2, 13); // above what is left
    refused(&state, &[u64::MAX, 0], 2, 13);
    refused(&state, &[0, 1], 2, 13); // not reached
    refused(&state, &[3, 1], 2, 13); // nothing left after a finish
    let next = accepted(&state, &[0, 0], &[3, 0]);
    refused(&next, &[3, 0], 2, 13); // not above run
    refused(&next, &[2, 0], 2, 13);
    // A finish leaves the rest of the tick to the next job.
    let next = accepted(&next, &[4, 2], &[1, 2]);
    refused(&next, &[1, 0], 2, 13); // already over
    refused(&next, &[0, 3], 2, 13);
    assert_eq!(now(&next), (0, None, 3));
    let next = accepted(&next, &[0, 0], &[0, 0]);
    assert_eq!((next.idle, next.counts[0], next.cut), (3, 6, 0));
    // 10 before 11, 11 before 13.
    refused(&next, &[1], 2, 11);
    let mut last = next;
    last.t = LONGEST_RUN;
    refused(&last, &[1], 2, 10);
}

#[test]
fn the_last_tick() {
    let mut state = admitted(&[1], &[50], &[50], &[100]);
    state.t = LONGEST_RUN - 1;
    state.counts[0] = state.t * 50;
    state.cut = state.t;
    let state = accepted(&state, &[0], &[50]);
    assert_eq!(state.t, LONGEST_RUN);
    assert_eq!(now(&state), (10, None, 0));
    refused(&state, &[0], 1, 10);
    assert_eq!(energy(&state), (0, 50 * LONGEST_RUN * 10_000));
    // The most energy there is.
    let mut state = admitted(&[1], &[1_000_000], &[1_000_000], &[100]);
    state.t = LONGEST_RUN;
    state.counts[0] = LONGEST_RUN * 1_000_000;
    assert_eq!(energy(&state), (0, 10_000_000_000_000_000_000));
}

/// A job that a sound state holds too late is counted and dropped at its release.
#[test]
fn a_late_job() {
    let mut state = admitted(&[2, 4], &[2, 4], &[2], &[1]);
    state.t = 3;
    state.run = {
        let mut run = [0; 16];
        run[1] = 1;
        run
    };
    let next = accepted(&state, &[1, 0], &[1, 1]);
    assert_eq!((next.late, next.cut, next.t), (1, 0, 4));
    assert_eq!((next.run[1], next.over[1]), (0, false));
    let next = accepted(&state, &[0, 0], &[2, 0]);
    assert_eq!((next.late, next.cut), (1, 1));
    state.reserves[0] = 3;
    state.reserves[1] = 2;
    assert!(sound(&state));
    let next = accepted(&state, &[0, 0], &[2, 0]);
    assert_eq!((next.late, next.cut), (2, 0));
    assert_eq!(next.run, [0; 16]);
}

/// Document 01, "Slips that have looked right".
#[test]
fn slips() {
    // Use set to zero at completion.
    let mut state = admitted(&[4, 4], &[4, 4], &[1, 2], &[10, 20]);
    for grants in [[2, 0], [2, 0], [0, 2], [0, 2]] {
        assert_eq!(now(&state).2, 2);
        state = accepted(&state, &[0, 0], &grants);
    }
    assert_eq!((state.late, state.cut, state.counts[1]), (0, 2, 8));

    // Each quotient rounded down.
    let state = admitted(&[3; 3], &[4; 3], &[3, 4], &[10, 20]);
    assert_eq!(now(&state).2, 4);

    // The lowered use kept after the next release.
    let state = admitted(&[2], &[8], &[1, 4], &[10, 20]);
    let state = accepted(&state, &[1], &[1]);
    assert_eq!(now(&state), (0, None, 1));
    let state = accepted(&state, &[0], &[0]);
    assert_eq!(now(&state), (0, Some((1, 4)), 4));

    // The nearest speed: the load is 11 per tick, 10 is nearer than 100.
    let state = admitted(&[1], &[11], &[10, 100], &[10, 20]);
    assert_eq!(now(&state).2, 100);

    // A tie given to the shorter period: both deadlines are at 8.
    let state = admitted(&[8, 4], &[8, 4], &[2], &[10]);
    let state = (0..4).fold(state, |state, _| {
        let (number, next) = tick(&state, &[0, 0], &mut [0, 0]);
        assert_eq!(number, 0);
        next
    });
    assert_eq!(now(&state), (0, Some((1, 8)), 2));
}

/// Each line of the list of soundness, broken alone.
#[test]
fn unsound_states() {
    let good = {
        let state = accepted(&paper(), &[0, 0, 0], &[75, 0, 0]);
        accepted(&state, &[76, 0, 0], &[1, 74, 0])
    };
    let wrong: [fn(&mut State); 36] = [
        |s| s.t = LONGEST_RUN + 1,
        |s| s.t = u64::MAX,
        |s| s.t = 1,
        |s| s.task_count = 0,
        |s| s.task_count = 2,
        |s| s.task_count = 4,
        |s| s.task_count = 17,
        |s| s.task_count = u64::MAX,
        |s| s.great_period = 560,
        |s| s.great_period = 0,
        |s| s.periods[0] = 0,
        |s| s.periods[1] = u64::MAX,
        |s| s.periods[15] = 1,
        |s| s.reserves[0] = u64::MAX,
        |s| s.reserves[2] = 1_000,
        |s| s.reserves[3] = 1,
        |s| s.run[0] = 0,
        |s| s.run[0] = 301,
        |s| s.run[1] = 300,
        |s| s.run[3] = 1,
        |s| (s.run[1], s.over[1]) = (301, true),
        |s| s.over[3] = true,
        |s| s.over[2] = true,
        |s| s.speed_count = 0,
        |s| s.speed_count = 2,
        |s| s.speed_count = 9,
        |s| s.speed_count = u64::MAX,
        |s| s.speeds[1] = 50,
        |s| s.speeds[7] = 1,
        |s| s.volts[0] = 41,
        |s| s.volts[3] = 1,
        |s| s.counts[3] = 1,
        |s| s.counts = [u64::MAX / 2 + 1, u64::MAX / 2 + 1, 0, 0, 0, 0, 0, 0],
        |s| s.idle = u64::MAX,
        |s| s.late = 33,
        |s| s.cut = 33,
    ];
    for (place, wrong) in wrong.iter().enumerate() {
        let mut state = good;
        wrong(&mut state);
        assert_eq!(now(&state), (9, None, 0), "{place}");
        assert_eq!(energy(&state), (9, 0), "{place}");
        refused(&state, &[0; 3], 3, 9);
        refused(&state, &[1; 5], 0, 9);
    }
    // And the near ones that are sound.
    let right: [fn(&mut State); 9] = [
        |s| s.t = LONGEST_RUN,
        |s| (s.t, s.idle, s.counts) = (0, 0, [0; 8]),
        |s| s.idle = 200 - 150,
        |s| s.late = 32,
        |s| s.cut = 32,
        |s| s.run[0] = 300,
        |s| s.run[1] = 299,
        |s| s.counts = [0, 0, 200, 0, 0, 0, 0, 0],
        |s| (s.run[2], s.over[2]) = (1, true),
    ];
    for (place, right) in right.iter().enumerate() {
        let mut state = good;
        right(&mut state);
        assert!(sound(&state), "{place}");
    }
}

/// Any numbers in any field, any lengths: an answer.
#[test]
fn nonsense_is_answered() {
    let mut chance = Chance::new(5);
    for _ in 0..20_000 {
        let mut state = match chance.below(2) {
            0 => paper(),
            _ => State::default(),
        };
        for _ in 0..1 + chance.below(6) {
            let number = chance.number();
            let place = chance.below(16) as usize;
            match chance.below(14) {
                0 => state.t = number,
                1 => state.task_count = number,
                2 => state.great_period = number,
                3 => state.periods[place] = number,
                4 => state.reserves[place] = number,
                5 => state.run[place] = number,
                6 => state.over[place] = number % 2 == 1,
                7 => state.speed_count = number,
                8 => state.speeds[place % 8] = number,
                9 => state.volts[place % 8] = number,
                10 => state.counts[place % 8] = number,
                11 => state.idle = number,
                12 => state.late = number,
                _ => state.cut = number,
            }
        }
        plain::agrees(&state, &mut chance);
    }
}

/// Runs of random tables, and sound states that no run reaches, against the rules put
/// down plainly.
#[test]
fn runs_agree_with_the_plain_rules() {
    let mut chance = Chance::new(1);
    for _ in 0..300 {
        let mut state = plain::random_start(&mut chance);
        for _ in 0..60 {
            state = plain::agrees(&state, &mut chance);
            if chance.below(12) == 0 {
                plain::shake(&mut state, &mut chance);
                assert!(sound(&state));
            }
        }
    }
}

/// From a fresh start no job is late.
#[test]
fn never_late_from_a_fresh_start() {
    let mut chance = Chance::new(9);
    for _ in 0..300 {
        let mut state = plain::random_start(&mut chance);
        for _ in 0..200 {
            state = plain::agrees(&state, &mut chance);
        }
        assert_eq!(state.late, 0);
    }
}
