//! The C face, as include/finder.h declares it.
use crate::{Breakdown, Ceiling, Normal, Refusal, Weighed};

/// Every answer begins with its number. All values are plain integers, so that any answer is a valid one.
#[repr(C)]
pub struct Answer<T> {
    number: u8,
    value: T,
}

impl<T> Answer<T> {
    pub fn accepted(self) -> Result<T, Refusal> {
        accepted(self.number).map(|()| self.value)
    }
}

#[repr(C)]
pub struct Written {
    number: u8,
}

impl Written {
    pub fn accepted(self) -> Result<(), Refusal> {
        accepted(self.number)
    }
}

/// Not an [`Answer`], which would leave a byte free after the number.
#[repr(C)]
pub struct Held {
    number: u8,
    held: u8,
    ceiling: u16,
}

impl Held {
    pub fn accepted(self) -> Result<Ceiling, Refusal> {
        accepted(self.number).map(|()| Ceiling { held: self.held != 0, ceiling: self.ceiling })
    }
}

#[repr(C)]
pub struct Span {
    pub start: usize,
    pub len: usize,
}

fn accepted(number: u8) -> Result<(), Refusal> {
    Err(match number {
        0 => return Ok(()),
        1 => Refusal::Empty,
        2 => Refusal::Long,
        3 => Refusal::Place,
        4 => Refusal::Short,
        5 => Refusal::None,
        6 => Refusal::Version,
        7 => Refusal::File,
        8 => Refusal::Symbol,
        _ => unreachable!("no refusal has the number {number}"),
    })
}

/// A call that writes one table: log and table, each with its length.
pub type Table = unsafe extern "C" fn(*const u8, usize, *mut u16, usize) -> Written;

/// A call that writes two.
pub type TwoTables = unsafe extern "C" fn(*const u8, usize, *mut u16, usize, *mut u16, usize) -> Written;

extern "C" {
    pub fn finder_border_table(x: *const u8, n: usize, t: *mut u16, tn: usize) -> Written;
    pub fn finder_prefix_table(x: *const u8, n: usize, t: *mut u16, tn: usize) -> Written;
    pub fn finder_cover_table(x: *const u8, n: usize, t: *mut u16, tn: usize) -> Written;
    pub fn finder_enhanced_table(x: *const u8, n: usize, best: *mut u16, bn: usize, count: *mut u16, cn: usize) -> Answer<u32>;
    pub fn finder_left_covers(x: *const u8, n: usize, best: *mut u16, bn: usize, count: *mut u16, cn: usize) -> Written;
    pub fn finder_left_seeds(x: *const u8, n: usize, best: *mut u16, bn: usize, count: *mut u16, cn: usize) -> Written;
    pub fn finder_window(
        x: *const u8,
        n: usize,
        a: usize,
        m: usize,
        border: *mut u16,
        bn: usize,
        prefix: *mut u16,
        pn: usize,
        cover: *mut u16,
        cn: usize,
        best: *mut u16,
        en: usize,
        count: *mut u16,
        kn: usize,
    ) -> Answer<u32>;
    pub fn finder_normal_form(x: *const u8, n: usize, i: usize) -> Answer<Normal>;
    pub fn finder_breakdown(x: *const u8, n: usize) -> Answer<Breakdown>;
    pub fn finder_cover_list(x: *const u8, n: usize, t: *mut u16, tn: usize) -> Answer<u16>;
    pub fn finder_cover_test(x: *const u8, n: usize, i: usize, q: usize) -> Answer<u8>;
    pub fn finder_weighed_list(x: *const u8, n: usize, i: usize) -> Answer<Weighed>;
    pub fn finder_best_pattern(x: *const u8, n: usize) -> Answer<Span>;
    pub fn finder_ceiling(x: *const u8, n: usize) -> Held;
    pub fn finder_file(f: *const u8, len: usize) -> Answer<Span>;
}
