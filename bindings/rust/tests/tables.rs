//! The calls that write tables: each entry, each refusal, and no other number touched.
mod common;

use common::lent::Lent;
use common::logs::{self, Chance};
use common::reference::{self, Pair, Rows};
use finder::{Refusal, Tables, LONGEST};

type Table = fn(&[u8], &mut [u16]) -> Result<(), Refusal>;

fn check_table(call: Table, log: &[u8], column: &[u16], room: usize, chance: &mut Chance) {
    let mut lent = Lent::new(room, chance);
    let answer = call(log, lent.table());
    assert_eq!(answer, reference::judge_tables(log.len(), &[room]));
    lent.holds(0, if answer.is_ok() { column } else { &[] });
}

fn check_enhanced(log: &[u8], rows: &Rows, rooms: [usize; 2], chance: &mut Chance) {
    let [mut best, mut count] = rooms.map(|room| Lent::new(room, chance));
    let answer = finder::enhanced_table(log, best.table(), count.table());
    assert_eq!(answer, reference::judge_tables(log.len(), &rooms).map(|()| rows.total));
    best.holds(0, if answer.is_ok() { &rows.best } else { &[] });
    count.holds(0, if answer.is_ok() { &rows.count } else { &[] });
}

type TwoTables = fn(&[u8], &mut [u16], &mut [u16]) -> Result<(), Refusal>;

fn check_left(call: TwoTables, log: &[u8], columns: &Pair, rooms: [usize; 2], chance: &mut Chance) {
    let [mut best, mut count] = rooms.map(|room| Lent::new(room, chance));
    let answer = call(log, best.table(), count.table());
    assert_eq!(answer, reference::judge_tables(log.len(), &rooms));
    best.holds(0, if answer.is_ok() { &columns.0 } else { &[] });
    count.holds(0, if answer.is_ok() { &columns.1 } else { &[] });
}

/// Readings that would lengthen every occurrence stand before and after the log. They must not matter.
fn check_tables(log: &[u8], rows: &Rows, rooms: &[usize]) {
    let n = log.len();
    let shelf = log.repeat(3);
    let log = &shelf[n..2 * n];
    let chance = &mut Chance::new(n as u64);
    for &room in rooms {
        check_table(finder::border_table, log, &rows.border, room, chance);
        check_table(finder::prefix_table, log, &rows.prefix, room, chance);
        check_table(finder::cover_table, log, &rows.cover, room, chance);
        for &other in rooms {
            check_enhanced(log, rows, [room, other], chance);
            check_left(finder::left_covers, log, &rows.left_covers, [room, other], chance);
            check_left(finder::left_seeds, log, &rows.left_seeds, [room, other], chance);
        }
    }
}

fn around(n: usize) -> [usize; 4] {
    [n.saturating_sub(1), n, n + 1, n + 9]
}

#[test]
fn small_logs() {
    logs::small().for_each(|log| check_tables(&log, &reference::rows(&log), &around(log.len())));
}

#[test]
fn longer_logs() {
    logs::longer(160, 25).for_each(|log| check_tables(&log, &reference::rows(&log), &around(log.len())));
}

/// By what is known of a flat log: here the definitions alone would take too long.
fn rows_of_flat(n: usize) -> Rows {
    let column = |entry: &dyn Fn(usize) -> usize| (1..=n).map(|i| entry(i) as u16).collect::<Vec<_>>();
    let best = column(&|i| usize::from(i > 1));
    let count = column(&|i| if i > 1 { i } else { 0 });
    Rows {
        border: column(&|i| i - 1),
        prefix: column(&|i| n + 1 - i),
        cover: column(&|i| i - 1),
        best: best.clone(),
        count: count.clone(),
        total: n.saturating_sub(1) as u32,
        left_covers: (best.clone(), count.clone()),
        left_seeds: (best, count),
    }
}

#[test]
fn shortest_and_longest_logs() {
    for n in [0, 1, LONGEST - 1, LONGEST, LONGEST + 1, 2 * LONGEST] {
        check_tables(&vec![20; n], &rows_of_flat(n), &[0, n.saturating_sub(1), n, n + 1]);
    }
    let log = logs::random(2, LONGEST, &mut Chance::new(7));
    check_tables(&log, &reference::rows(&log), &[LONGEST]);
}

/// `short` is the one of the five tables that gets `room` entries; the others have enough.
fn check_window(log: &[u8], (a, m): (usize, usize), rows: &Rows, (short, room): (usize, usize), chance: &mut Chance) {
    let mut rooms = [log.len() + 3; 5];
    rooms[short] = room;
    let mut lent = rooms.map(|room| Lent::new(room, chance));
    let [border, prefix, cover, best, count] = &mut lent;
    let mut tables =
        Tables { border: border.table(), prefix: prefix.table(), cover: cover.table(), best: best.table(), count: count.table() };
    let answer = finder::window(log, a, m, &mut tables);
    assert_eq!(answer, reference::judge_window(log.len(), a, m, &rooms).map(|()| rows.total));
    let columns = [&rows.border, &rows.prefix, &rows.cover, &rows.best, &rows.count];
    for (lent, column) in lent.iter().zip(columns) {
        if answer.is_ok() {
            lent.holds(a, column);
        } else {
            lent.is_untouched();
        }
    }
}

fn check_rooms(log: &[u8], a: usize, m: usize, chance: &mut Chance) {
    let inside = m > 0 && a <= log.len() && m <= log.len() - a;
    let rows = reference::rows(if inside { &log[a..a + m] } else { &[] });
    for short in 0..5 {
        let end = a.saturating_add(m).min(log.len() + 1);
        for room in [0, end.saturating_sub(1), end] {
            check_window(log, (a, m), &rows, (short, room), chance);
        }
    }
}

#[test]
fn windows_of_small_logs() {
    let chance = &mut Chance::new(1);
    for log in logs::small().filter(|log| log.len() <= 7) {
        for a in 0..=log.len() + 1 {
            (0..=log.len() + 1).for_each(|m| check_rooms(&log, a, m, chance));
        }
    }
}

#[test]
fn windows_of_longer_logs() {
    let chance = &mut Chance::new(2);
    for log in logs::longer(120, 10) {
        let a = chance.below(log.len());
        let m = 1 + chance.below(log.len() - a);
        check_rooms(&log, a, m, chance);
    }
}

#[test]
fn windows_outside() {
    let chance = &mut Chance::new(3);
    for n in [0, 1, 5, LONGEST, LONGEST + 1] {
        let log = vec![20; n];
        let ends = [0, 1, n, n + 1, usize::MAX / 2 + 1, usize::MAX - n, usize::MAX];
        for (a, m) in ends.iter().flat_map(|&a| ends.map(|m| (a, m))) {
            let rows = rows_of_flat(if m <= n { m } else { 0 });
            [0, n].iter().for_each(|&room| check_window(&log, (a, m), &rows, (4, room), chance));
        }
    }
}
