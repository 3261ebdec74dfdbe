//! The plant's file, whole and damaged.
mod common;

use common::logs::Chance;
use common::reference;
use finder::{Refusal, LONGEST};

fn file(n: usize, chance: &mut Chance) -> Vec<u8> {
    let header = [1, (n >> 8) as u8, n as u8];
    header.into_iter().chain((0..n).map(|_| chance.below(21) as u8)).collect()
}

/// The part is the file's own, not merely equal to it.
#[track_caller]
fn check(file: &[u8]) {
    let (answer, judged) = (finder::symbols(file), reference::symbols(file));
    assert_eq!(answer, judged);
    assert!(answer.is_err() || std::ptr::eq(answer.unwrap(), judged.unwrap()));
}

#[test]
fn whole_files() {
    let chance = &mut Chance::new(1);
    for n in [1, 2, 3, 255, 256, 257, LONGEST - 1, LONGEST] {
        let file = file(n, chance);
        assert_eq!(finder::symbols(&file), Ok(&file[3..]));
        check(&file);
    }
}

#[test]
fn lengths_that_are_refused() {
    let chance = &mut Chance::new(2);
    for (n, refusal) in [(0, Refusal::Empty), (LONGEST + 1, Refusal::Long), (0xffff, Refusal::Long)] {
        let file = file(n, chance);
        assert_eq!(finder::symbols(&file), Err(refusal));
        assert_eq!(finder::symbols(&file[..3]), Err(refusal));
    }
}

#[test]
fn short_and_long_files() {
    let file = file(300, &mut Chance::new(3));
    (0..file.len()).for_each(|len| check(&file[..len]));
    [&[20][..], &[21], &[0; 256]].iter().for_each(|more| check(&[&file[..], more].concat()));
}

#[test]
fn each_byte_damaged() {
    let whole = file(40, &mut Chance::new(4));
    for place in 0..whole.len() {
        for byte in 0..=255 {
            let mut file = whole.clone();
            file[place] = byte;
            check(&file);
        }
    }
}

/// Several damages at once: the order of the refusals decides.
#[test]
fn much_damage() {
    let chance = &mut Chance::new(5);
    for _ in 0..20_000 {
        let mut file = file(chance.below(12), chance);
        for _ in 0..chance.below(4) {
            let place = chance.below(file.len());
            file[place] = [0, 1, 2, 20, 21, 255][chance.below(6)];
        }
        file.truncate(file.len() - chance.below(2) * chance.below(file.len()));
        check(&file);
    }
}
