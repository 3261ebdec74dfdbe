//! The calls that answer by value, with a list, or with a part of the log.
mod common;

use common::lent::Lent;
use common::logs::{self, Chance};
use common::reference;
use finder::{Refusal, LONGEST};

fn check_cover_list(log: &[u8], list: &[u16], chance: &mut Chance) {
    let n = log.len();
    for room in [0, n.saturating_sub(1), n, n + 5] {
        let mut lent = Lent::new(room, chance);
        let answer = finder::cover_list(log, lent.table()).map(<[u16]>::to_vec);
        assert_eq!(answer, reference::judge_tables(n, &[room]).map(|()| list.to_vec()));
        lent.holds(0, if answer.is_ok() { list } else { &[] });
    }
}

/// The part is the log's own, not merely equal to it.
fn check_best_pattern(log: &[u8], best: usize) {
    let judged = reference::judge_log(log.len()).and(if best == 0 { Err(Refusal::None) } else { Ok(&log[..best]) });
    let answer = finder::best_pattern(log);
    assert_eq!(answer, judged);
    assert!(answer.is_err() || std::ptr::eq(answer.unwrap(), judged.unwrap()));
}

fn check_prefix(log: &[u8], i: usize) {
    let judged = reference::judge_prefix(log.len(), i, 1);
    assert_eq!(finder::normal_form(log, i), judged.map(|()| reference::normal(log, i)));
    assert_eq!(finder::weighed_list(log, i), judged.map(|()| reference::weighed(log, i)));
}

fn check_cover_test(log: &[u8], i: usize, q: usize) {
    let judged = reference::judge_prefix(log.len(), i, q);
    assert_eq!(finder::cover_test(log, i, q), judged.map(|()| reference::covers(log, i, q)));
}

fn check_log(log: &[u8]) {
    let n = log.len();
    let shelf = log.repeat(3);
    let log = &shelf[n..2 * n];
    assert_eq!(finder::breakdown(log), Ok(reference::breakdown(log)));
    assert_eq!(finder::ceiling(log), Ok(reference::ceiling(log)));
    check_cover_list(log, &reference::cover_list(log), &mut Chance::new(n as u64));
    check_best_pattern(log, reference::enhanced(log, n).0);
    for i in 0..=n + 1 {
        check_prefix(log, i);
        (0..=n + 1).for_each(|q| check_cover_test(log, i, q));
    }
}

#[test]
fn small_logs() {
    logs::small().for_each(|log| check_log(&log));
}

#[test]
fn longer_logs() {
    logs::longer(90, 15).for_each(|log| check_log(&log));
}

/// The longest log that is judged has places left, and no more than it needs.
#[test]
fn longest_logs() {
    for log in [logs::fibonacci(LONGEST), logs::random(2, LONGEST, &mut Chance::new(5)), vec![20; LONGEST]] {
        assert_eq!(finder::breakdown(&log), Ok(reference::breakdown(&log)));
        assert_eq!(finder::ceiling(&log), Ok(reference::ceiling(&log)));
        check_best_pattern(&log, reference::enhanced(&log, LONGEST).0);
        [0, 1, 2, 2047, 2048, LONGEST, LONGEST + 1, usize::MAX].iter().for_each(|&i| check_prefix(&log, i));
        for (i, q) in [(LONGEST, 1), (LONGEST, LONGEST), (LONGEST + 1, 1), (LONGEST, LONGEST + 1), (usize::MAX, usize::MAX)] {
            check_cover_test(&log, i, q);
        }
    }
    check_cover_list(&[20; LONGEST], &(1..=LONGEST as u16).collect::<Vec<_>>(), &mut Chance::new(6));
}

/// At the ceiling but for one reading of any value, wherever it stands. Readings at the ceiling lie before and after the log.
#[test]
fn logs_about_the_ceiling() {
    let mut shelf = [20; 3 * 125];
    for n in 1..=125 {
        for place in 125..125 + n {
            for value in 0..=255 {
                shelf[place] = value;
                let log = &shelf[125..125 + n];
                assert_eq!(finder::ceiling(log), Ok(reference::ceiling(log)));
            }
            shelf[place] = 20;
        }
    }
}

#[test]
fn logs_that_are_refused() {
    for n in [0, LONGEST + 1, 2 * LONGEST] {
        let log = vec![20; n];
        let refusal = reference::judge_log(n).unwrap_err();
        assert_eq!(finder::breakdown(&log), Err(refusal));
        assert_eq!(finder::ceiling(&log), Err(refusal));
        check_best_pattern(&log, 0);
        check_cover_list(&log, &[], &mut Chance::new(8));
        for i in [0, 1, n, n + 1] {
            check_prefix(&log, i);
            [0, 1, i, i + 1].iter().for_each(|&q| check_cover_test(&log, i, q));
        }
    }
}
