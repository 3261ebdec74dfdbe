//! Logs whose results are known from elsewhere. They hold the definitions of the other tests in place.
use finder::{Ceiling, Refusal, Tables, CEILING, RECENT};

struct Row {
    log: &'static [u8],
    border: &'static [u16],
    prefix: &'static [u16],
    cover: &'static [u16],
    best: &'static [u16],
    count: &'static [u16],
}

const ROWS: [Row; 6] = [
    Row { log: b"a", border: &[0], prefix: &[1], cover: &[0], best: &[0], count: &[0] },
    Row { log: b"aa", border: &[0, 1], prefix: &[2, 1], cover: &[0, 1], best: &[0, 1], count: &[0, 2] },
    Row { log: b"ab", border: &[0, 0], prefix: &[2, 0], cover: &[0, 0], best: &[0, 0], count: &[0, 0] },
    Row { log: b"aaaa", border: &[0, 1, 2, 3], prefix: &[4, 3, 2, 1], cover: &[0, 1, 2, 3], best: &[0, 1, 1, 1], count: &[0, 2, 3, 4] },
    Row {
        log: b"abaababab",
        border: &[0, 0, 1, 1, 2, 3, 2, 3, 2],
        prefix: &[9, 0, 1, 3, 0, 3, 0, 2, 0],
        cover: &[0, 0, 0, 0, 0, 3, 0, 3, 0],
        best: &[0, 0, 1, 1, 2, 3, 2, 3, 2],
        count: &[0, 0, 2, 3, 4, 6, 6, 8, 8],
    },
    Row {
        log: b"ababaababa",
        border: &[0, 0, 1, 2, 3, 1, 2, 3, 4, 5],
        prefix: &[10, 0, 3, 0, 1, 5, 0, 3, 0, 1],
        cover: &[0, 0, 0, 2, 3, 0, 0, 3, 0, 5],
        best: &[0, 0, 1, 2, 3, 1, 2, 3, 2, 3],
        count: &[0, 0, 2, 4, 5, 4, 6, 8, 8, 10],
    },
];

#[test]
fn tables() {
    for row in ROWS {
        let n = row.log.len();
        let [mut border, mut prefix, mut cover, mut best, mut count] = [(); 5].map(|()| vec![0; n]);
        let mut tables = Tables { border: &mut border, prefix: &mut prefix, cover: &mut cover, best: &mut best, count: &mut count };
        finder::window(row.log, 0, n, &mut tables).unwrap();
        assert_eq!([border, prefix, cover, best, count], [row.border, row.prefix, row.cover, row.best, row.count]);
    }
}

/// The last row of the left covers, and that of the left seeds.
#[test]
fn left_rows() {
    let known: [(&[u8], _, _); 6] = [
        (b"a", (0, 0), (0, 0)),
        (b"ab", (0, 0), (0, 0)),
        (b"aaaa", (1, 4), (1, 4)),
        (b"abaabab", (2, 6), (3, 7)),
        (b"abaabaab", (5, 8), (3, 8)),
        (b"ababaa", (3, 5), (3, 6)),
    ];
    for (log, cover, seed) in known {
        let (n, mut best, mut count) = (log.len(), [0; 8], [0; 8]);
        finder::left_covers(log, &mut best, &mut count).unwrap();
        assert_eq!((best[n - 1], count[n - 1]), cover);
        finder::left_seeds(log, &mut best, &mut count).unwrap();
        assert_eq!((best[n - 1], count[n - 1]), seed);
    }
}

const P7: &[u8] = b"abaababaababa";
const P8: &[u8] = b"ababaabaabababaababaabaababa";

#[test]
fn normal_forms() {
    let known: [(&[u8], _); 7] = [
        (b"a", (1, 0, 1)),
        (b"aa", (1, 0, 2)),
        (b"ab", (2, 0, 1)),
        (b"aaaa", (1, 0, 4)),
        (b"abaababab", (7, 2, 1)),
        (P7, (5, 3, 2)),
        (P8, (15, 13, 1)),
    ];
    for (log, (k1, k2, k)) in known {
        assert_eq!(finder::normal_form(log, log.len()), Ok(finder::Normal { k1, k2, k }));
    }
}

#[test]
fn lists() {
    let covers: [(&[u8], &[u16]); 7] =
        [(b"a", &[1]), (b"aa", &[1, 2]), (b"ab", &[2]), (b"aaaa", &[1, 2, 3, 4]), (b"abaababab", &[9]), (P7, &[3, 8, 13]), (P8, &[3, 28])];
    for (log, list) in covers {
        assert_eq!(finder::cover_list(log, &mut [0; 28]), Ok(list));
    }
    let weighed: [(&[u8], &[u16], u16); 3] = [(b"aaaa", &[1], 2), (b"abaababab", &[2], 3), (P8, &[3, 1], 4)];
    for (log, list, limit) in weighed {
        let answer = finder::weighed_list(log, log.len()).unwrap();
        assert_eq!((answer.lens(), answer.limit), (list, limit));
    }
    for (log, lens) in [(P7, &[13, 3, 1][..]), (P8, &[28, 13, 5, 1])] {
        assert!(finder::breakdown(log).unwrap().parts().iter().map(|part| part.len).eq(lens.iter().copied()));
    }
    assert_eq!(finder::best_pattern(b"ab"), Err(Refusal::None));
}

/// So many others, so many at the ceiling, so many others; and whether the head is held.
#[test]
fn edges_of_held() {
    assert_eq!((CEILING, RECENT), (20, 60));
    let edges = [(0, 59, 0, true), (0, 60, 0, true), (1, 59, 0, false), (1, 60, 0, true), (0, 60, 1, false), (0, 1, 0, true), (1, 0, 0, false)];
    for (before, run, after, held) in edges {
        let log = [vec![4; before], vec![CEILING; run], vec![4; after]].concat();
        assert_eq!(finder::ceiling(&log), Ok(Ceiling { held, ceiling: run as u16 }));
    }
    assert_eq!(finder::ceiling(&[]), Err(Refusal::Empty));
}
