//! The procedures of plain.c in Rust, with every index checked. See plain.h.

const LONGEST: usize = 4096;

fn border_of(x: &[u8], border: &mut [u16]) {
    let mut b = 0;
    border[0] = 0;
    for i in 1..x.len() {
        while b > 0 && x[b] != x[i] {
            b = border[b - 1] as usize;
        }
        b += usize::from(x[b] == x[i]);
        border[i] = b as u16;
    }
}

fn prefix_of(x: &[u8], prefix: &mut [u16]) {
    let (n, mut l, mut r) = (x.len(), 0, 0);
    prefix[0] = n as u16;
    for i in 1..n {
        let mut m = if i < r { (prefix[i - l] as usize).min(r - i) } else { 0 };
        while i + m < n && x[m] == x[i + m] {
            m += 1;
        }
        if r < i + m {
            (l, r) = (i, i + m);
        }
        prefix[i] = m as u16;
    }
}

fn living(up: &mut [u16], mut m: usize) -> usize {
    while up[m] as usize != m {
        up[m] = up[up[m] as usize];
        m = up[m] as usize;
    }
    m
}

fn bury(up: &mut [u16], children: &mut [u16], cover: &[u16], mut m: usize) {
    while children[m] == 0 {
        up[m] = cover[m - 1];
        m = up[m] as usize;
        children[m] -= 1;
    }
}

fn cover_of(border: &[u16], cover: &mut [u16]) {
    let (mut up, mut children, mut period) = ([0; LONGEST + 1], [0; LONGEST + 1], 1);
    children[0] = 1;
    for i in 1..=border.len() {
        let b = border[i - 1] as usize;
        while period < i - b {
            bury(&mut up, &mut children, cover, period);
            period += 1;
        }
        let c = living(&mut up, b);
        cover[i - 1] = c as u16;
        children[c] += 1;
        up[i] = i as u16;
    }
}

fn enhanced_of(border: &[u16], cover: &[u16], best: &mut [u16], count: &mut [u16]) -> u32 {
    let (mut bare, mut last, mut covered) = ([0; LONGEST + 1], [0; LONGEST + 1], [0; LONGEST + 1]);
    let mut total = 0;
    for i in 1..=border.len() {
        let longest = bare[border[i - 1] as usize];
        let (mut q, mut pattern, mut most) = (longest, 0, 0);
        while q > 0 {
            let at = q as usize;
            covered[at] += q.min(i as u16 - last[at]);
            last[at] = i as u16;
            if covered[at] >= most {
                (pattern, most) = (q, covered[at]);
            }
            total += 1;
            q = bare[border[at - 1] as usize];
        }
        best[i - 1] = pattern;
        count[i - 1] = most;
        bare[i] = if cover[i - 1] == 0 { i as u16 } else { longest };
        last[i] = i as u16;
        covered[i] = i as u16;
    }
    total
}

#[derive(Clone, Copy, Default)]
struct Row {
    pattern: u16,
    most: u16,
}

impl Row {
    fn better(self, than: Row) -> bool {
        self.most > than.most || (self.most == than.most && self.pattern < than.pattern)
    }
}

fn left_of(best: &mut [u16], count: &mut [u16]) {
    let mut left = Row::default();
    for (pattern, most) in best.iter_mut().zip(count) {
        let row = Row { pattern: *pattern, most: *most };
        if row.better(left) {
            left = row;
        }
        (*pattern, *most) = (left.pattern, left.most);
    }
}

#[derive(Clone, Copy, Default)]
struct Seed {
    row: Row,
    start: u16,
}

impl Seed {
    fn ended(row: Row, border: &[u16]) -> Self {
        Seed { row, start: border[row.pattern as usize - 1] }
    }

    fn grown(self, border: &[u16]) -> Self {
        let row = Row { pattern: self.row.pattern, most: self.row.most + 1 };
        if self.start + 1 == row.pattern {
            Seed::ended(row, border)
        } else {
            Seed { row, start: self.start + 1 }
        }
    }
}

struct Bed {
    bare: [u16; LONGEST + 1],
    last: [u16; LONGEST + 1],
    covered: [u16; LONGEST + 1],
    under: [u16; LONGEST + 1],
    fall: [u16; LONGEST + 1],
    twice: u16,
    left: Row,
}

impl Bed {
    fn new() -> Self {
        let none = [0; LONGEST + 1];
        Bed { bare: none, last: none, covered: none, under: none, fall: none, twice: 0, left: Row::default() }
    }

    fn weigh(&mut self, border: &[u16], cover: &[u16], i: usize) -> Row {
        let longest = self.bare[border[i - 1] as usize];
        let (mut q, mut best) = (longest, Row::default());
        while q > 0 {
            let at = q as usize;
            self.covered[at] += q.min(i as u16 - self.last[at]);
            self.last[at] = i as u16;
            if self.covered[at] >= best.most {
                best = Row { pattern: q, most: self.covered[at] };
            }
            q = self.bare[border[at - 1] as usize];
        }
        self.bare[i] = if cover[i - 1] == 0 { i as u16 } else { longest };
        self.last[i] = i as u16;
        self.covered[i] = i as u16;
        best
    }

    fn keep(&mut self, cover: &[u16], i: usize, b: u16, best: Row) {
        self.under[i] = if cover[i - 1] == 0 { i as u16 } else { self.under[i - 1] };
        self.fall[i] = if b < self.under[i] { b } else { self.fall[b as usize] };
        self.twice = self.twice.max(b);
        if best.better(self.left) {
            self.left = best;
        }
    }

    fn search(&self, i: usize, b: u16) -> Seed {
        let (mut q, mut start, mut best) = (self.under[self.twice as usize], b, Seed::default());
        while q > 0 {
            let at = q as usize;
            if q <= start {
                start = self.fall[start as usize];
            }
            if self.covered[at] + start >= best.row.most {
                let now = self.covered[at] + start.min(i as u16 - self.last[at]);
                if now >= best.row.most {
                    best = Seed { row: Row { pattern: q, most: now }, start };
                }
            }
            q = self.under[at - 1];
        }
        best
    }

    fn seed(&self, x: &[u8], border: &[u16], i: usize, best: Row, was: Seed) -> Seed {
        let (b, left) = (border[i - 1], self.left);
        if was.row.pattern > 0 && x[was.start as usize] == x[i - 1] {
            let on = was.grown(border);
            return if best.better(on.row) { Seed::ended(best, border) } else { on };
        }
        if best.most > was.row.most + 1 {
            return Seed::ended(best, border);
        }
        if left.pattern > b && self.last[left.pattern as usize] + b <= i as u16 {
            return Seed { row: Row { pattern: left.pattern, most: left.most + b }, start: b };
        }
        self.search(i, b)
    }
}

fn seeds_of(x: &[u8], border: &[u16], cover: &[u16], best: &mut [u16], count: &mut [u16]) {
    let (mut bed, mut seed) = (Bed::new(), Seed::default());
    for i in 1..=x.len() {
        let row = bed.weigh(border, cover, i);
        bed.keep(cover, i, border[i - 1], row);
        seed = bed.seed(x, border, i, row, seed);
        best[i - 1] = seed.row.pattern;
        count[i - 1] = seed.row.most;
    }
}

use std::slice::{from_raw_parts as lent, from_raw_parts_mut as lent_mut};

/// # Safety
/// Here and below: n readings at x, n entries at each table, and no two of them overlap.
#[no_mangle]
pub unsafe extern "C" fn rust_border(x: *const u8, n: usize, border: *mut u16) {
    border_of(lent(x, n), lent_mut(border, n));
}

#[no_mangle]
pub unsafe extern "C" fn rust_prefix(x: *const u8, n: usize, prefix: *mut u16) {
    prefix_of(lent(x, n), lent_mut(prefix, n));
}

#[no_mangle]
pub unsafe extern "C" fn rust_cover(x: *const u8, n: usize, cover: *mut u16) {
    let border = &mut [0; LONGEST][..n];
    border_of(lent(x, n), border);
    cover_of(border, lent_mut(cover, n));
}

#[no_mangle]
pub unsafe extern "C" fn rust_enhanced(x: *const u8, n: usize, best: *mut u16, count: *mut u16) -> u32 {
    let (border, cover) = (&mut [0; LONGEST][..n], &mut [0; LONGEST][..n]);
    border_of(lent(x, n), border);
    cover_of(border, cover);
    enhanced_of(border, cover, lent_mut(best, n), lent_mut(count, n))
}

#[no_mangle]
pub unsafe extern "C" fn rust_left_covers(x: *const u8, n: usize, best: *mut u16, count: *mut u16) {
    let (border, cover, best, count) = (&mut [0; LONGEST][..n], &mut [0; LONGEST][..n], lent_mut(best, n), lent_mut(count, n));
    border_of(lent(x, n), border);
    cover_of(border, cover);
    enhanced_of(border, cover, best, count);
    left_of(best, count);
}

#[no_mangle]
pub unsafe extern "C" fn rust_left_seeds(x: *const u8, n: usize, best: *mut u16, count: *mut u16) {
    let (x, border, cover) = (lent(x, n), &mut [0; LONGEST][..n], &mut [0; LONGEST][..n]);
    border_of(x, border);
    cover_of(border, cover);
    seeds_of(x, border, cover, lent_mut(best, n), lent_mut(count, n));
}

#[no_mangle]
pub unsafe extern "C" fn rust_all(
    x: *const u8,
    n: usize,
    border: *mut u16,
    prefix: *mut u16,
    cover: *mut u16,
    best: *mut u16,
    count: *mut u16,
) -> u32 {
    let (x, border, cover) = (lent(x, n), lent_mut(border, n), lent_mut(cover, n));
    border_of(x, border);
    prefix_of(x, lent_mut(prefix, n));
    cover_of(border, cover);
    enhanced_of(border, cover, lent_mut(best, n), lent_mut(count, n))
}

#[no_mangle]
pub unsafe extern "C" fn rust_ceiling(x: *const u8, n: usize) -> u32 {
    let x = lent(x, n);
    let ceiling = x.iter().filter(|&&reading| reading == 20).count() as u32;
    let held = x[n.saturating_sub(60)..].iter().all(|&reading| reading == 20);
    ceiling + if held { 65536 } else { 0 }
}
