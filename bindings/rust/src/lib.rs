//! Safe calls of the proved pattern finder: tables, covers and best patterns of a log of readings.
//!
//! A log is 1 to [`LONGEST`] bytes of any value. Row `i` of a table is `table[i - 1]` and speaks of the log's prefix of length
//! `i`. A pattern is a nonempty prefix; its occurrences may overlap. It covers a prefix if every position of that prefix lies
//! inside an occurrence that ends within it. A border is a prefix, shorter than the judged one, that is also its suffix.
//!
//! Every call answers the first [`Refusal`] that applies, in the order of their numbers unless it says otherwise. A refused call
//! changes no table. What stood in a table before never matters to an answer.
//!
//! ```
//! let log = b"ababaababa";
//! let (mut best, mut count) = ([0; 10], [0; 10]);
//! finder::enhanced_table(log, &mut best, &mut count)?;
//! assert_eq!(best, [0, 0, 1, 2, 3, 1, 2, 3, 2, 3]);
//! assert_eq!(count, [0, 0, 2, 4, 5, 4, 6, 8, 8, 10]);
//! assert_eq!(finder::best_pattern(log)?, b"aba");
//! # Ok::<(), finder::Refusal>(())
//! ```

mod face;

use std::{error, fmt};

/// The most readings that a log may have.
pub const LONGEST: usize = 4096;
/// The symbol of a reading at the ceiling.
pub const CEILING: u8 = 20;
/// How many of the last readings say whether a head is held at the ceiling.
pub const RECENT: usize = 60;
/// The places of a weighed list.
pub const WEIGHED_PLACES: usize = 12;
/// The places of a breakdown.
pub const BREAKDOWN_PLACES: usize = 13;

/// Why a call says no.
#[derive(Clone, Copy, Debug, PartialEq, Eq, Hash)]
#[repr(u8)]
pub enum Refusal {
    /// The log has no reading.
    Empty = 1,
    /// The log has more than [`LONGEST`] readings.
    Long = 2,
    /// A prefix, a pattern or a window does not lie in the log.
    Place = 3,
    /// A lent table has too few entries.
    Short = 4,
    /// There is no best pattern.
    None = 5,
    /// The file's first byte is not 1.
    Version = 6,
    /// The file has no full header, or not the size that its header says.
    File = 7,
    /// The file has a symbol above 20.
    Symbol = 8,
}

impl Refusal {
    /// The refusal's number in the C face.
    pub const fn number(self) -> u8 {
        self as u8
    }
}

impl fmt::Display for Refusal {
    fn fmt(&self, f: &mut fmt::Formatter) -> fmt::Result {
        f.write_str(match self {
            Refusal::Empty => "the log has no reading",
            Refusal::Long => "the log has too many readings",
            Refusal::Place => "a prefix, a pattern or a window does not lie in the log",
            Refusal::Short => "a lent table has too few entries",
            Refusal::None => "there is no best pattern",
            Refusal::Version => "the file's first byte is not 1",
            Refusal::File => "the file has not the size that it should have",
            Refusal::Symbol => "the file has a symbol above 20",
        })
    }
}

impl error::Error for Refusal {}

/// The normal form of a prefix of length `i` with border `f`: `k1 = i - f`, `k = i / k1`, `k2 = i % k1`.
#[derive(Clone, Copy, Debug, Default, PartialEq, Eq)]
#[repr(C)]
pub struct Normal {
    pub k1: u16,
    pub k2: u16,
    pub k: u16,
}

/// One part of a breakdown.
#[derive(Clone, Copy, Debug, Default, PartialEq, Eq)]
#[repr(C)]
pub struct Part {
    pub len: u16,
    pub normal: Normal,
}

/// A breakdown: the places after the first `used` are zeros.
#[derive(Clone, Copy, Debug, PartialEq, Eq)]
#[repr(C)]
pub struct Breakdown {
    pub used: u16,
    pub places: [Part; BREAKDOWN_PLACES],
}

impl Breakdown {
    /// The places in use, the whole log first.
    pub fn parts(&self) -> &[Part] {
        &self.places[..self.used.into()]
    }
}

/// A weighed list: the places after the first `used` are zeros, and `used` is at most `limit`.
#[derive(Clone, Copy, Debug, PartialEq, Eq)]
#[repr(C)]
pub struct Weighed {
    pub used: u16,
    pub limit: u16,
    pub places: [u16; WEIGHED_PLACES],
}

impl Weighed {
    /// The places in use, longest first.
    pub fn lens(&self) -> &[u16] {
        &self.places[..self.used.into()]
    }
}

/// How a log stands to the ceiling.
#[derive(Clone, Copy, Debug, PartialEq, Eq)]
pub struct Ceiling {
    /// The head is held at the ceiling now.
    pub held: bool,
    /// How many readings are at the ceiling.
    pub ceiling: u16,
}

/// The five tables that a window writes to.
pub struct Tables<'t> {
    pub border: &'t mut [u16],
    pub prefix: &'t mut [u16],
    pub cover: &'t mut [u16],
    pub best: &'t mut [u16],
    pub count: &'t mut [u16],
}

fn write_table(call: face::Table, log: &[u8], table: &mut [u16]) -> Result<(), Refusal> {
    // SAFETY: both pairs are a live slice's, and the table is lent to this call alone.
    unsafe { call(log.as_ptr(), log.len(), table.as_mut_ptr(), table.len()) }.accepted()
}

fn write_two_tables(call: face::TwoTables, log: &[u8], best: &mut [u16], count: &mut [u16]) -> Result<(), Refusal> {
    // SAFETY: each pair is a live slice's, and the tables are lent to this call alone.
    unsafe { call(log.as_ptr(), log.len(), best.as_mut_ptr(), best.len(), count.as_mut_ptr(), count.len()) }.accepted()
}

/// The border table. Row `i`: the longest border of the prefix of length `i`; 0 if it has no nonempty one.
///
/// Writes the first `log.len()` entries; later ones stay. Refuses: `Empty`, `Long`, `Short`.
///
/// ```
/// let mut border = [9; 6];
/// finder::border_table(b"abaab", &mut border)?;
/// assert_eq!(border, [0, 0, 1, 1, 2, 9]);
/// assert_eq!(finder::border_table(b"abaab", &mut border[..4]), Err(finder::Refusal::Short));
/// # Ok::<(), finder::Refusal>(())
/// ```
pub fn border_table(log: &[u8], table: &mut [u16]) -> Result<(), Refusal> {
    write_table(face::finder_border_table, log, table)
}

/// The prefix table. Row `i`: how many readings from position `i` on equal the log's first ones. Row 1 is `log.len()`.
///
/// Writes the first `log.len()` entries; later ones stay. Refuses: `Empty`, `Long`, `Short`.
///
/// ```
/// let mut prefix = [0; 5];
/// finder::prefix_table(b"abaab", &mut prefix)?;
/// assert_eq!(prefix, [5, 0, 1, 2, 0]);
/// # Ok::<(), finder::Refusal>(())
/// ```
pub fn prefix_table(log: &[u8], table: &mut [u16]) -> Result<(), Refusal> {
    write_table(face::finder_prefix_table, log, table)
}

/// The cover table. Row `i`: the longest pattern shorter than `i` that covers the prefix of length `i`; 0 if none.
///
/// Writes the first `log.len()` entries; later ones stay. Refuses: `Empty`, `Long`, `Short`.
///
/// ```
/// let mut cover = [0; 8];
/// finder::cover_table(b"abaababa", &mut cover)?;
/// assert_eq!(cover, [0, 0, 0, 0, 0, 3, 0, 3]);
/// # Ok::<(), finder::Refusal>(())
/// ```
pub fn cover_table(log: &[u8], table: &mut [u16]) -> Result<(), Refusal> {
    write_table(face::finder_cover_table, log, table)
}

/// The enhanced table. Row `i`: of the nonempty borders of the prefix of length `i`, `best` has the shortest of those that cover
/// the most of its positions, and `count` has how many these are; both 0 if there is none. Answers the weighed total: the sum of
/// `used` of [`weighed_list`] over all rows.
///
/// Writes the first `log.len()` entries of both; later ones stay. Refuses: `Empty`, `Long`, `Short`.
///
/// ```
/// let (mut best, mut count) = ([0; 4], [0; 4]);
/// assert_eq!(finder::enhanced_table(b"aaaa", &mut best, &mut count)?, 3);
/// assert_eq!(best, [0, 1, 1, 1]);
/// assert_eq!(count, [0, 2, 3, 4]);
/// # Ok::<(), finder::Refusal>(())
/// ```
pub fn enhanced_table(log: &[u8], best: &mut [u16], count: &mut [u16]) -> Result<u32, Refusal> {
    // SAFETY: each pair is a live slice's, and the tables are lent to this call alone.
    unsafe { face::finder_enhanced_table(log.as_ptr(), log.len(), best.as_mut_ptr(), best.len(), count.as_mut_ptr(), count.len()) }
        .accepted()
}

/// The left covers. Row `i`: of the patterns that occur at least twice in the prefix of length `i`, `best` has the shortest of those
/// that cover the most of its positions, and `count` has how many these are; both 0 if there is none.
///
/// Writes the first `log.len()` entries of both; later ones stay. Refuses: `Empty`, `Long`, `Short`.
///
/// ```
/// let (mut best, mut count) = ([0; 7], [0; 7]);
/// finder::left_covers(b"abaabab", &mut best, &mut count)?;
/// assert_eq!(best, [0, 0, 1, 1, 2, 3, 2]);
/// assert_eq!(count, [0, 0, 2, 3, 4, 6, 6]);
/// # Ok::<(), finder::Refusal>(())
/// ```
pub fn left_covers(log: &[u8], best: &mut [u16], count: &mut [u16]) -> Result<(), Refusal> {
    write_two_tables(face::finder_left_covers, log, best, count)
}

/// The left seeds. As [`left_covers`], of the same patterns, but a pattern that is not yet read to its end covers too: of one of
/// length `q`, every `m < q` such that the last `m` readings of the prefix equal the first `m` covers these last `m` positions.
///
/// Writes the first `log.len()` entries of both; later ones stay. Refuses: `Empty`, `Long`, `Short`.
///
/// ```
/// let (mut best, mut count) = ([0; 7], [0; 7]);
/// finder::left_seeds(b"abaabab", &mut best, &mut count)?;
/// assert_eq!(best, [0, 0, 1, 1, 2, 3, 3]);
/// assert_eq!(count, [0, 0, 2, 3, 4, 6, 7]);
/// # Ok::<(), finder::Refusal>(())
/// ```
pub fn left_seeds(log: &[u8], best: &mut [u16], count: &mut [u16]) -> Result<(), Refusal> {
    write_two_tables(face::finder_left_seeds, log, best, count)
}

/// The `len` readings after the first `skipped`, judged as a log of their own. Answers their weighed total.
///
/// Writes entries `skipped..skipped + len` of all five tables; the others stay. Refuses: `Empty`, `Long`, `Place`, `Short`.
///
/// ```
/// let [mut border, mut prefix, mut cover, mut best, mut count] = [[9; 10]; 5];
/// let mut tables = finder::Tables {
///     border: &mut border,
///     prefix: &mut prefix,
///     cover: &mut cover,
///     best: &mut best,
///     count: &mut count,
/// };
/// finder::window(b"ababaababa", 5, 5, &mut tables)?;
/// assert_eq!(finder::window(b"ababaababa", 5, 6, &mut tables), Err(finder::Refusal::Place));
/// assert_eq!(cover, [9, 9, 9, 9, 9, 0, 0, 0, 2, 3]);
/// # Ok::<(), finder::Refusal>(())
/// ```
pub fn window(log: &[u8], skipped: usize, len: usize, tables: &mut Tables) -> Result<u32, Refusal> {
    // SAFETY: each pair is a live slice's, and the tables are lent to this call alone.
    unsafe {
        face::finder_window(
            log.as_ptr(),
            log.len(),
            skipped,
            len,
            tables.border.as_mut_ptr(),
            tables.border.len(),
            tables.prefix.as_mut_ptr(),
            tables.prefix.len(),
            tables.cover.as_mut_ptr(),
            tables.cover.len(),
            tables.best.as_mut_ptr(),
            tables.best.len(),
            tables.count.as_mut_ptr(),
            tables.count.len(),
        )
    }
    .accepted()
}

/// The normal form of the prefix of length `i`. Refuses: `Empty`, `Long`, `Place`.
///
/// ```
/// assert_eq!(finder::normal_form(b"abaababab", 9)?, finder::Normal { k1: 7, k2: 2, k: 1 });
/// # Ok::<(), finder::Refusal>(())
/// ```
pub fn normal_form(log: &[u8], i: usize) -> Result<Normal, Refusal> {
    // SAFETY: the pair is a live slice's.
    unsafe { face::finder_normal_form(log.as_ptr(), log.len(), i) }.accepted()
}

/// The breakdown of the whole log. After a part comes the prefix of length `k2` if that is not 0, else the one of length `k1` if
/// `k > 1`; else there is no further part. Refuses: `Empty`, `Long`.
///
/// ```
/// let breakdown = finder::breakdown(b"abaababaababa")?;
/// assert!(breakdown.parts().iter().map(|part| part.len).eq([13, 3, 1]));
/// # Ok::<(), finder::Refusal>(())
/// ```
pub fn breakdown(log: &[u8]) -> Result<Breakdown, Refusal> {
    // SAFETY: the pair is a live slice's.
    unsafe { face::finder_breakdown(log.as_ptr(), log.len()) }.accepted()
}

/// The lengths of all patterns that cover the log, rising, the log's own length last. They are the written part of the table,
/// which has to have `log.len()` entries; the entries after them stay. Refuses: `Empty`, `Long`, `Short`.
///
/// ```
/// let mut table = [0; 13];
/// assert_eq!(finder::cover_list(b"abaababaababa", &mut table)?, [3, 8, 13]);
/// # Ok::<(), finder::Refusal>(())
/// ```
pub fn cover_list<'t>(log: &[u8], table: &'t mut [u16]) -> Result<&'t [u16], Refusal> {
    // SAFETY: both pairs are a live slice's, and the table is lent to this call alone.
    let used = unsafe { face::finder_cover_list(log.as_ptr(), log.len(), table.as_mut_ptr(), table.len()) }.accepted()?;
    Ok(&table[..used.into()])
}

/// Does the pattern of length `q` cover the prefix of length `i`? Refuses: `Empty`, `Long`, `Place`.
///
/// ```
/// assert!(finder::cover_test(b"ababaababa", 10, 3)?);
/// assert!(!finder::cover_test(b"ababaababa", 9, 3)?);
/// # Ok::<(), finder::Refusal>(())
/// ```
pub fn cover_test(log: &[u8], i: usize, q: usize) -> Result<bool, Refusal> {
    // SAFETY: the pair is a live slice's.
    let covers = unsafe { face::finder_cover_test(log.as_ptr(), log.len(), i, q) }.accepted()?;
    Ok(covers != 0)
}

/// The nonempty borders of the prefix of length `i` that no shorter pattern covers. Refuses: `Empty`, `Long`, `Place`.
///
/// ```
/// let weighed = finder::weighed_list(b"ababaababa", 10)?;
/// assert_eq!(weighed.lens(), [3, 1]);
/// assert_eq!(weighed.limit, 3);
/// # Ok::<(), finder::Refusal>(())
/// ```
pub fn weighed_list(log: &[u8], i: usize) -> Result<Weighed, Refusal> {
    // SAFETY: the pair is a live slice's.
    unsafe { face::finder_weighed_list(log.as_ptr(), log.len(), i) }.accepted()
}

/// The best pattern of the whole log, as a part of it. Refuses: `Empty`, `Long`, `None`.
///
/// ```
/// assert_eq!(finder::best_pattern(b"ababaababa")?, b"aba");
/// assert_eq!(finder::best_pattern(b"ab"), Err(finder::Refusal::None));
/// # Ok::<(), finder::Refusal>(())
/// ```
pub fn best_pattern(log: &[u8]) -> Result<&[u8], Refusal> {
    // SAFETY: the pair is a live slice's.
    let span = unsafe { face::finder_best_pattern(log.as_ptr(), log.len()) }.accepted()?;
    Ok(part(log, span))
}

/// How the log stands to the ceiling. It is held if the last [`RECENT`] readings are all [`CEILING`], or, where there are fewer, if
/// every reading is. The others may have any value. Refuses: `Empty`, `Long`.
///
/// ```
/// let mut log = [20; 90];
/// log[..30].fill(4);
/// assert_eq!(finder::ceiling(&log)?, finder::Ceiling { held: true, ceiling: 60 });
/// log[89] = 19;
/// assert_eq!(finder::ceiling(&log)?, finder::Ceiling { held: false, ceiling: 59 });
/// # Ok::<(), finder::Refusal>(())
/// ```
pub fn ceiling(log: &[u8]) -> Result<Ceiling, Refusal> {
    // SAFETY: the pair is a live slice's.
    unsafe { face::finder_ceiling(log.as_ptr(), log.len()) }.accepted()
}

/// The symbols of a plant's file, as a part of it: the file is version 1, their number in two bytes, the greater first, then the
/// symbols, each 0 to 20. Refuses, in this order: `File` without a full header, `Version`, `Empty`, `Long`, `File` by its size, `Symbol`.
///
/// ```
/// assert_eq!(finder::symbols(&[1, 0, 2, 4, 20])?, [4, 20]);
/// assert_eq!(finder::symbols(&[1, 0, 3, 4, 20]), Err(finder::Refusal::File));
/// # Ok::<(), finder::Refusal>(())
/// ```
pub fn symbols(file: &[u8]) -> Result<&[u8], Refusal> {
    // SAFETY: the pair is a live slice's.
    let span = unsafe { face::finder_file(file.as_ptr(), file.len()) }.accepted()?;
    Ok(part(file, span))
}

fn part(bytes: &[u8], span: face::Span) -> &[u8] {
    &bytes[span.start..][..span.len]
}
