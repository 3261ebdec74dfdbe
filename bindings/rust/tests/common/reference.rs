//! Every answer straight from its definition, with nothing remembered from one prefix to the next.
use finder::{Breakdown, Ceiling, Normal, Part, Refusal, Weighed, BREAKDOWN_PLACES, LONGEST, WEIGHED_PLACES};

/// The pattern of length q occurs with its end at e.
fn ends(x: &[u8], q: usize, e: usize) -> bool {
    q <= e && x[e - q..e] == x[..q]
}

/// The nonempty borders of the prefix of length i, rising.
fn borders(x: &[u8], i: usize) -> Vec<usize> {
    (1..i).filter(|&q| ends(x, q, i)).collect()
}

/// The ends within the prefix of length i of the occurrences of the pattern of length q.
fn occurrences(x: &[u8], i: usize, q: usize) -> impl Iterator<Item = usize> + '_ {
    (q..=i).filter(move |&e| ends(x, q, e))
}

/// Which positions of the prefix of length i lie inside an occurrence of the pattern of length q that ends within it.
fn inside(x: &[u8], i: usize, q: usize) -> Vec<bool> {
    let mut inside = vec![false; i];
    occurrences(x, i, q).for_each(|e| inside[e - q..e].fill(true));
    inside
}

fn how_many(inside: Vec<bool>) -> usize {
    inside.into_iter().filter(|&p| p).count()
}

fn covered(x: &[u8], i: usize, q: usize) -> usize {
    how_many(inside(x, i, q))
}

pub fn covers(x: &[u8], i: usize, q: usize) -> bool {
    covered(x, i, q) == i
}

pub fn border(x: &[u8], i: usize) -> usize {
    borders(x, i).pop().unwrap_or(0)
}

pub fn prefix(x: &[u8], i: usize) -> usize {
    let rest = &x[i - 1..];
    (0..=rest.len()).rev().find(|&m| rest[..m] == x[..m]).unwrap()
}

/// The longest proper cover. The last position lies in an occurrence that ends at i, so only a border can be one.
pub fn cover(x: &[u8], i: usize) -> usize {
    borders(x, i).into_iter().rev().find(|&q| covers(x, i, q)).unwrap_or(0)
}

/// Of rising patterns the one that covers the most, and how many: a longer one has to cover more to be taken.
fn most(patterns: impl Iterator<Item = usize>, covered: impl Fn(usize) -> usize) -> (usize, usize) {
    let weigh = |best: (usize, usize), q| {
        let count = covered(q);
        if count > best.1 {
            (q, count)
        } else {
            best
        }
    };
    patterns.fold((0, 0), weigh)
}

/// Best and Count.
pub fn enhanced(x: &[u8], i: usize) -> (usize, usize) {
    most(borders(x, i).into_iter(), |q| covered(x, i, q))
}

/// The patterns that occur at least twice in the prefix of length i, rising. Where one does not, no longer one does.
fn twice(x: &[u8], i: usize) -> impl Iterator<Item = usize> + '_ {
    (1..i).take_while(move |&q| occurrences(x, i, q).count() > 1)
}

fn left_cover(x: &[u8], i: usize) -> (usize, usize) {
    most(twice(x, i), |q| covered(x, i, q))
}

/// What is covered, and what the starts of the pattern that end at i lie on.
fn sown(x: &[u8], i: usize, q: usize) -> usize {
    let mut inside = inside(x, i, q);
    (1..q).filter(|&m| ends(x, m, i)).for_each(|m| inside[i - m..].fill(true));
    how_many(inside)
}

fn left_seed(x: &[u8], i: usize) -> (usize, usize) {
    most(twice(x, i), |q| sown(x, i, q))
}

pub fn normal(x: &[u8], i: usize) -> Normal {
    let k1 = i - border(x, i);
    Normal { k1: k1 as u16, k2: (i % k1) as u16, k: (i / k1) as u16 }
}

pub fn breakdown(x: &[u8]) -> Breakdown {
    let mut places = [Part::default(); BREAKDOWN_PLACES];
    let (mut used, mut len) = (0, x.len());
    while len > 0 {
        let normal = normal(x, len);
        places[used] = Part { len: len as u16, normal };
        used += 1;
        len = match normal {
            Normal { k2, .. } if k2 > 0 => k2.into(),
            Normal { k1, k, .. } if k > 1 => k1.into(),
            _ => 0,
        };
    }
    Breakdown { used: used as u16, places }
}

pub fn cover_list(x: &[u8]) -> Vec<u16> {
    (1..=x.len()).filter(|&q| covers(x, x.len(), q)).map(|q| q as u16).collect()
}

fn uncovered_borders(x: &[u8], i: usize) -> Vec<usize> {
    borders(x, i).into_iter().filter(|&q| cover(x, q) == 0).collect()
}

pub fn weighed(x: &[u8], i: usize) -> Weighed {
    let mut places = [0; WEIGHED_PLACES];
    let list = uncovered_borders(x, i);
    for (place, q) in places.iter_mut().zip(list.iter().rev()) {
        *place = *q as u16;
    }
    let limit = (0..16).rev().find(|&k| 1 << k <= i).unwrap();
    Weighed { used: list.len() as u16, limit, places }
}

/// Held: whatever is not at the ceiling stands at least sixty readings before the end.
pub fn ceiling(x: &[u8]) -> Ceiling {
    let others = x.iter().enumerate().filter(|reading| *reading.1 != 20);
    let ceiling = (x.len() - others.clone().count()) as u16;
    Ceiling { held: others.last().map_or(true, |(place, _)| place + 60 < x.len()), ceiling }
}

/// Patterns, and how many positions they cover.
pub type Pair = (Vec<u16>, Vec<u16>);

/// The five columns of a log and its weighed total; its left covers and left seeds.
pub struct Rows {
    pub border: Vec<u16>,
    pub prefix: Vec<u16>,
    pub cover: Vec<u16>,
    pub best: Vec<u16>,
    pub count: Vec<u16>,
    pub total: u32,
    pub left_covers: Pair,
    pub left_seeds: Pair,
}

pub fn rows(x: &[u8]) -> Rows {
    let column = |entry: &dyn Fn(usize) -> usize| (1..=x.len()).map(|i| entry(i) as u16).collect();
    let pair = |entry: &dyn Fn(usize) -> (usize, usize)| (1..=x.len()).map(entry).map(|(q, count)| (q as u16, count as u16)).unzip();
    Rows {
        border: column(&|i| border(x, i)),
        prefix: column(&|i| prefix(x, i)),
        cover: column(&|i| cover(x, i)),
        best: column(&|i| enhanced(x, i).0),
        count: column(&|i| enhanced(x, i).1),
        total: (1..=x.len()).map(|i| uncovered_borders(x, i).len() as u32).sum(),
        left_covers: pair(&|i| left_cover(x, i)),
        left_seeds: pair(&|i| left_seed(x, i)),
    }
}

/// The first refusal whose test passes.
fn first(tests: &[(bool, Refusal)]) -> Result<(), Refusal> {
    tests.iter().find(|test| test.0).map_or(Ok(()), |test| Err(test.1))
}

fn outside(i: usize, n: usize) -> bool {
    i == 0 || i > n
}

/// A log of n readings.
pub fn judge_log(n: usize) -> Result<(), Refusal> {
    first(&[(n == 0, Refusal::Empty), (n > LONGEST, Refusal::Long)])
}

/// Tables of these sizes, for n rows.
pub fn judge_tables(n: usize, rooms: &[usize]) -> Result<(), Refusal> {
    judge_log(n)?;
    first(&[(rooms.iter().any(|&room| room < n), Refusal::Short)])
}

/// A prefix of length i, in it a pattern of length q.
pub fn judge_prefix(n: usize, i: usize, q: usize) -> Result<(), Refusal> {
    judge_log(n)?;
    first(&[(outside(i, n) || outside(q, i), Refusal::Place)])
}

/// A window of m readings after the first a, and tables of these sizes.
pub fn judge_window(n: usize, a: usize, m: usize, rooms: &[usize]) -> Result<(), Refusal> {
    judge_log(n)?;
    let end = a as u128 + m as u128;
    let short = rooms.iter().any(|&room| (room as u128) < end);
    first(&[(m == 0 || end > n as u128, Refusal::Place), (short, Refusal::Short)])
}

pub fn symbols(file: &[u8]) -> Result<&[u8], Refusal> {
    first(&[(file.len() < 3, Refusal::File)])?;
    let (header, symbols) = file.split_at(3);
    let n = usize::from(header[1]) * 256 + usize::from(header[2]);
    first(&[(header[0] != 1, Refusal::Version)])?;
    judge_log(n)?;
    first(&[(symbols.len() != n, Refusal::File), (symbols.iter().any(|&s| s > 20), Refusal::Symbol)])?;
    Ok(symbols)
}
