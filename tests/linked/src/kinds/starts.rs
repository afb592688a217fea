//! Inputs of start.

use crate::desk::Desk;
use crate::edges;
use crate::random::Random;
use crate::tables::{self, Table, MOST};

/// The lengths that are tried: 0 to 20.
const LENGTHS: usize = 21;

/// Cuts a list or goes on with it: the last value again, or for speeds one more than the last.
fn resize(list: &mut Vec<u64>, length: usize, step: u64) {
    list.truncate(length);
    while list.len() < length {
        let last = list.last().map_or(1, |last| last + step);
        list.push(last);
    }
}

/// Lists of periods and reserves of one pair of lengths, with speeds and volts of every pair.
pub fn four_lengths(random: &mut Random, round: usize, desk: &mut Desk) {
    let (periods, reserves) = (round / LENGTHS, round % LENGTHS);
    for pair in 0..LENGTHS * LENGTHS {
        let lengths = [periods, reserves, pair / LENGTHS, pair % LENGTHS];
        let tasks = periods.clamp(1, second::TASKS);
        let speeds = lengths[2].clamp(1, second::SPEEDS);
        let mut table = tables::small(random, tasks, speeds);
        for (place, list) in table.lists.iter_mut().enumerate() {
            resize(list, lengths[place], u64::from(place == 2));
        }
        if random.once_in(3) {
            change_one(random, &mut table);
        }
        desk.start(table.lists);
    }
}

/// An edge value at one place of one list.
fn change_one(random: &mut Random, table: &mut Table) {
    let list = random.place(4);
    if !table.lists[list].is_empty() {
        let place = random.place(table.lists[list].len());
        let old = table.lists[list][place];
        table.lists[list][place] = random.pick(&edges::around(MOST[list], old));
    }
}

/// A table that start admits, and each of its places with each edge value.
pub fn edge_values(random: &mut Random, _: usize, desk: &mut Desk) {
    let table = tables::any(random);
    desk.start(table.lists.clone());
    for list in 0..4 {
        for place in 0..table.lists[list].len() {
            edge_values_at(&table, list, place, desk);
        }
    }
}

/// Each edge value at one place, and the value before it in its list and its neighbors.
fn edge_values_at(table: &Table, list: usize, place: usize, desk: &mut Desk) {
    let old = table.lists[list][place];
    let before = table.lists[list][place.saturating_sub(1)];
    let mut values = edges::around(MOST[list], old).to_vec();
    values.extend([before - 1, before, before + 1]);
    for value in values {
        let mut lists = table.lists.clone();
        lists[list][place] = value;
        desk.start(lists);
    }
}

/// Number 7: a great period up to its limit or just above it.
pub fn about_the_great_period(random: &mut Random, _: usize, desk: &mut Desk) {
    let mut table = tables::about_the_great_period(random);
    desk.start(table.lists.clone());
    // a reserve past the line: 7 comes before 8
    table.lists[1].fill(MOST[1]);
    desk.start(table.lists);
}

/// Number 8: a load on the line, and one cycle past it.
pub fn about_the_line(random: &mut Random, _: usize, desk: &mut Desk) {
    let mut table = tables::any(random);
    table.to_the_line();
    desk.start(table.lists.clone());
    let task = random.place(table.lists[1].len());
    table.lists[1][task] += 1;
    desk.start(table.lists.clone());
    change_one(random, &mut table);
    desk.start(table.lists);
}

/// Lists of words, of small numbers, or of a table with some places changed.
pub fn nonsense(random: &mut Random, _: usize, desk: &mut Desk) {
    let mut table = tables::any(random);
    let most = random.pick(&[1, 2, 3, 12, u64::MAX]);
    for list in &mut table.lists {
        for value in list.iter_mut() {
            *value = random.any_length(most).max(random.between(0, 1));
        }
    }
    if random.once_in(2) {
        table.lists[2].sort();
        table.lists[3].sort();
    }
    desk.start(table.lists);
    let mut table = tables::any(random);
    for _ in 0..random.between(1, 3) {
        change_one(random, &mut table);
    }
    desk.start(table.lists);
}
