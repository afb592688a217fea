//! That the governors agree: every tick of a run, with refused ones between.

use crate::governors::{Governor, Seen};
use crate::shapes::{Run, Table};
use linked::random::Random;

/// A number that no tick grants, so that a place that is not written is seen.
const UNWRITTEN: u64 = u64::MAX;

/// The place of the second program among the governors.
const SECOND: usize = 1;

/// Plays a run with all governors, the second one's answers being those that are asked for; gives the refused ticks.
pub fn check(run: &Run, governors: &mut [Box<dyn Governor>]) -> u64 {
    let ends: Vec<(Seen, Vec<u64>)> = governors.iter().map(|one| end(run, &**one)).collect();
    let mut random = Random::of(4180, 0, 0);
    let mut refused = 0;
    for report in run.reports.chunks_exact(run.table.periods.len()) {
        if random.once_in(2) {
            let spoiled = spoil(report, &governors[SECOND].seen(), &run.table, &mut random);
            // A report that is good after all is left out: the run must go its way.
            if would_refuse(&*governors[SECOND], &spoiled) {
                assert_eq!(step(governors, &spoiled), 13);
                refused += 1;
            }
        }
        assert_eq!(step(governors, report), 0);
    }
    for (governor, (seen, _)) in governors.iter().zip(&ends) {
        let name = governor.name();
        assert_eq!(*seen, governor.seen(), "{name} at the run's end");
        assert_eq!(*seen, ends[SECOND].0, "{name} and second at the run's end");
    }
    assert!(
        ends.iter().all(|end| end.1 == ends[SECOND].1),
        "the last grants"
    );
    refused
}

/// Whether a governor refuses a report with 13.
fn would_refuse(governor: &dyn Governor, report: &[u64]) -> bool {
    let mut grants = vec![UNWRITTEN; report.len()];
    governor.copy().tick(report, &mut grants) == 13
}

/// What the measured loop of a governor comes to.
fn end(run: &Run, governor: &dyn Governor) -> (Seen, Vec<u64>) {
    let mut grants = vec![UNWRITTEN; run.table.periods.len()];
    let seen = governor.play(&run.reports, &mut grants);
    (seen, grants)
}

/// One tick of each governor; the number, the grants and the state that all agree on.
fn step(governors: &mut [Box<dyn Governor>], report: &[u64]) -> u64 {
    let mut answers = Vec::new();
    for governor in governors.iter_mut() {
        let before = governor.seen();
        let mut grants = vec![UNWRITTEN; report.len()];
        let number = governor.tick(report, &mut grants);
        let kept = grants.iter().all(|&cycles| cycles == UNWRITTEN) && before == governor.seen();
        assert_eq!(number != 0, kept, "{} at {before:?}", governor.name());
        answers.push((number, grants, governor.seen()));
    }
    for (governor, answer) in governors.iter().zip(&answers) {
        assert_eq!(*answer, answers[SECOND], "{} and second", governor.name());
    }
    answers[SECOND].0
}

/// A report with one entry changed to one that rule 4 is likely to refuse.
fn spoil(report: &[u64], seen: &Seen, table: &Table, random: &mut Random) -> Vec<u64> {
    let mut spoiled = report.to_vec();
    let task = random.place(report.len());
    let (run, reserve) = (seen.run[task], table.reserves[task]);
    let entry = [1, run, run + 1, reserve, reserve + 1, run + 101, u64::MAX];
    spoiled[task] = random.pick(&entry);
    spoiled
}
