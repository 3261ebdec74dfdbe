//! Logs to try: all small ones, and longer ones of every kind from a seed.

/// Any two logs over as many letters are the same to the finder; these lie at the ends of a byte.
const LETTERS: [u8; 3] = [0, 255, 20];

/// Marsaglia's xorshift.
pub struct Chance(u64);

impl Chance {
    pub fn new(seed: u64) -> Self {
        Chance(seed ^ 0x9e37_79b9_7f4a_7c15)
    }

    pub fn below(&mut self, bound: usize) -> usize {
        self.0 ^= self.0 << 13;
        self.0 ^= self.0 >> 7;
        self.0 ^= self.0 << 17;
        (self.0 >> 11) as usize % bound
    }
}

/// Every log of 1 to `longest` readings over the first `letters` letters.
fn all(letters: usize, longest: u32) -> impl Iterator<Item = Vec<u8>> {
    (1..=longest).flat_map(move |n| (0..letters.pow(n)).map(move |code| (0..n).map(|p| LETTERS[code / letters.pow(p) % letters]).collect()))
}

pub fn small() -> impl Iterator<Item = Vec<u8>> {
    all(2, 11).chain(all(3, 7))
}

pub fn random(letters: usize, n: usize, chance: &mut Chance) -> Vec<u8> {
    (0..n).map(|_| LETTERS[chance.below(letters)]).collect()
}

pub fn fibonacci(n: usize) -> Vec<u8> {
    let (mut last, mut word) = (vec![LETTERS[1]], vec![LETTERS[0]]);
    while word.len() < n {
        let next = [&word[..], &last[..]].concat();
        last = std::mem::replace(&mut word, next);
    }
    word.truncate(n);
    word
}

fn repeated(cycle: &[u8], n: usize) -> Vec<u8> {
    cycle.iter().copied().cycle().take(n).collect()
}

/// These readings, as long a run as is left, and the readings again.
fn around_a_run(ends: &[u8], n: usize) -> Vec<u8> {
    [ends, &vec![ends[0]; n - 2 * ends.len()], ends].concat()
}

fn with_defects(mut log: Vec<u8>, chance: &mut Chance) -> Vec<u8> {
    for _ in 0..1 + log.len() / 40 {
        let place = chance.below(log.len());
        log[place] = LETTERS[chance.below(3)];
    }
    log
}

/// Logs of up to `longest` readings, some of each kind.
pub fn longer(longest: usize, rounds: u64) -> impl Iterator<Item = Vec<u8>> {
    (0..rounds).flat_map(move |seed| {
        let chance = &mut Chance::new(seed);
        let n = 12 + chance.below(longest - 11);
        let cycle = random(2, 1 + chance.below(20), chance);
        let run = [vec![LETTERS[0]; 1 + chance.below(15)], vec![LETTERS[1]]].concat();
        [
            random(2, n, chance),
            random(3, n, chance),
            repeated(&cycle, n),
            with_defects(repeated(&cycle, n), chance),
            repeated(&run, n),
            with_defects(fibonacci(n), chance),
            fibonacci(n),
            vec![LETTERS[2]; n],
            repeated(&random(2, (n + 1) / 2, chance), n),
            around_a_run(&random(3, 3 * n / 8, chance), n),
        ]
    })
}
