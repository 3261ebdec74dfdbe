//! A table with other numbers before and after it.
use super::logs::Chance;

const GUARD: usize = 24;

#[derive(Clone)]
pub struct Lent {
    before: Vec<u16>,
    now: Vec<u16>,
}

impl Lent {
    /// A table of `room` entries, all numbers random.
    pub fn new(room: usize, chance: &mut Chance) -> Self {
        let before: Vec<u16> = (0..room + 2 * GUARD).map(|_| chance.below(1 << 16) as u16).collect();
        Lent { now: before.clone(), before }
    }

    pub fn room(&self) -> usize {
        self.now.len() - 2 * GUARD
    }

    pub fn table(&mut self) -> &mut [u16] {
        let room = self.room();
        &mut self.now[GUARD..][..room]
    }

    /// The column stands after the first `skipped` entries; every other number is as it was.
    #[track_caller]
    pub fn holds(&self, skipped: usize, column: &[u16]) {
        let mut wanted = self.before.clone();
        wanted[GUARD + skipped..][..column.len()].copy_from_slice(column);
        assert_eq!(self.now, wanted);
    }

    #[track_caller]
    pub fn is_untouched(&self) {
        self.holds(0, &[]);
    }
}
