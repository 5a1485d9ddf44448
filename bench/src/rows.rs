// The inputs that are counted. They are the same in every run.
use crate::calls::Input;
use crate::twin;

const MARK: i32 = i32::MIN;

// Vectors before cleaning, by how many satisfy the half-space and how many do not.
const GROWING: [(usize, usize); 6] = [(2, 3), (4, 3), (8, 3), (8, 7), (8, 15), (16, 16)];

pub struct Row {
    pub family: &'static str,
    pub size: usize,
    pub clocks: usize,
    pub input: Input,
}

impl Row {
    pub fn name(&self) -> String {
        format!("{} {}, {} clocks", self.family, self.size, self.clocks)
    }
}

struct Random(u64);

impl Random {
    // One step of splitmix64.
    fn below(&mut self, count: i32) -> i32 {
        self.0 = self.0.wrapping_add(0x9E37_79B9_7F4A_7C15);
        let mixed = (self.0 ^ (self.0 >> 30)).wrapping_mul(0xBF58_476D_1CE4_E5B9);
        let mixed = (mixed ^ (mixed >> 27)).wrapping_mul(0x94D0_49BB_1331_11EB);
        ((mixed ^ (mixed >> 31)) % count as u64) as i32
    }
}

// The half-space whose entries are −∞ but for these.
fn half(n: usize, entries: [(usize, i32); 2]) -> Vec<i32> {
    let mut half = vec![MARK; 2 * (n + 1)];
    entries.into_iter().for_each(|(place, value)| half[place] = value);
    half
}

fn at_most(n: usize, x: usize, k: i32) -> Vec<i32> {
    half(n, [(x, 0), (2 * n + 1, k)])
}

fn at_least(n: usize, x: usize, k: i32) -> Vec<i32> {
    half(n, [(n + 1 + x, 0), (n, k)])
}

fn differ_at_most(n: usize, x: usize, y: usize, k: i32) -> Vec<i32> {
    half(n, [(x, 0), (n + 1 + y, k)])
}

// The list that a making call of the twin leaves.
fn made(n: usize, call: impl Fn(&mut [i32]) -> i64) -> Vec<i32> {
    let mut out = vec![0; 32 * (n + 1)];
    let count = usize::try_from(call(&mut out)).expect("no refusal");
    out.truncate(count * (n + 1));
    out
}

// A vector of which clock 0 is at most 7, or not: a quarter of them are rays.
fn scattered(random: &mut Random, n: usize, satisfies: bool) -> Vec<i32> {
    let ray = random.below(4) == 0;
    let clock = |i: usize| match (random.below(8), ray) {
        (_, true) if satisfies && i == 0 => MARK,
        (x, true) => x - 4,
        (x, false) if satisfies || i > 0 => x,
        (x, false) => x + 8,
    };
    (0..n).map(clock).chain([if ray { MARK } else { 0 }]).collect()
}

fn growing(n: usize, stay: usize, go: usize) -> Input {
    let mut random = Random(7);
    let list = (0..stay + go).flat_map(|i| scattered(&mut random, n, i < stay)).collect();
    Input::Intersect { list, half: at_most(n, 0, 7) }
}

// A list as a walk makes it: one clock after the other waited for, bounded and set to 0.
fn zone(n: usize, pace: i32) -> Vec<i32> {
    let mut list = vec![0; n + 1];
    for x in 0..n {
        list = made(n, |out| twin::delay(n, &list, out));
        list = made(n, |out| twin::intersect(n, &list, &at_most(n, x, pace * (4 + x as i32)), out));
        list = made(n, |out| twin::intersect(n, &list, &at_least(n, x, pace), out));
        list = made(n, |out| twin::reset(n, &list, x, 0, out));
    }
    list
}

// Points that no others generate: clock 0 rises, the others fall.
fn chain(n: usize, count: usize) -> Vec<i32> {
    let clock = |at: usize, i: usize| if i == 0 { 10 * at } else { 10 * (31 - at) + i };
    (0..count).flat_map(|at| (0..n).map(move |i| clock(at, i) as i32).chain([0])).collect()
}

// The larger of each vector and the one seven places behind it: the list generates them.
fn joined(n: usize, list: &[i32]) -> Vec<i32> {
    let behind = list.iter().cycle().skip(7 * (n + 1));
    list.iter().zip(behind).map(|(one, other)| *one.max(other)).collect()
}

fn typical(rows: &mut Vec<Row>, n: usize) {
    let (list, other) = (zone(n, 5), zone(n, 6));
    let later = made(n, |out| twin::delay(n, &list, out));
    let inner = made(n, |out| twin::intersect(n, &later, &at_least(n, 0, 7), out));
    let point = later[..n].iter().map(|x| x + 3).collect();
    let (clock, value) = (0, 0);
    let mut add = |family, size: &[i32], input| rows.push(Row { family, size: size.len() / (n + 1), clocks: n, input });
    add("contains, typical list of", &later, Input::Contains { list: later.clone(), point });
    add("included, typical list of", &later, Input::Included { inner, outer: later.clone() });
    add("intersect x ≥ k, typical list of", &later, Input::Intersect { list: later.clone(), half: at_least(n, 0, 7) });
    let differ = differ_at_most(n, 0, 1, -4);
    add("intersect x − y ≤ k, typical list of", &later, Input::Intersect { list: later.clone(), half: differ });
    add("delay, typical list of", &list, Input::Delay { list: list.clone() });
    add("reset, typical list of", &later, Input::Reset { list: later.clone(), clock, value });
    add("hull, typical lists of", &list, Input::Hull { first: list.clone(), second: other });
}

fn largest(rows: &mut Vec<Row>, n: usize) {
    let list = chain(n, 32);
    let generated = joined(n, &list);
    let later = made(n, |out| twin::delay(n, &chain(n, 30), out));
    let point = generated[..n].to_vec();
    let (clock, value) = (n - 1, 5);
    let mut add = |family, input| rows.push(Row { family, size: 32, clocks: n, input });
    add("contains, list of", Input::Contains { list: list.clone(), point });
    add("included, lists of", Input::Included { inner: generated.clone(), outer: list.clone() });
    add("delay, list of", Input::Delay { list: later });
    add("reset, list of", Input::Reset { list: list.clone(), clock, value });
    add("hull, lists of", Input::Hull { first: list, second: generated });
}

// A number in its groups of seven bits, the lowest first.
fn groups(number: u32) -> Vec<u8> {
    match number {
        0..128 => vec![number as u8],
        _ => [vec![(number % 128) as u8 + 128], groups(number / 128)].concat(),
    }
}

fn bytes(numbers: &[u32]) -> Vec<u8> {
    numbers.iter().flat_map(|&number| groups(number)).collect()
}

// A ring of locations left by ticks of one to three; clock 1 is never set to 0 and tells a state from those before.
// Of the two other edges one never opens and one leads back to the same state.
fn ticking(n: usize, kept: u32) -> Vec<u8> {
    let ring = n as u32 - 1;
    let mut numbers = vec![n as u32, ring, 3 * ring, 0];
    for _ in 0..ring {
        numbers.extend([1, 0, 0, 3]);
    }
    for l in 0..ring {
        let resets = if l == 0 { 1 } else { 1 | 2 << l };
        numbers.extend([l, (l + 1) % ring, 1, 1, 0, 1, resets]);
        numbers.extend([l, l, 1, 1, 0, 4, 0]);
        numbers.extend([l, l, 0, 0]);
    }
    numbers.extend([(kept - 1) % ring, 1, 1, 1, 3 * kept - 2, 200]);
    bytes(&numbers)
}

// Every count at its limit, and every entry of three groups.
fn longest() -> Vec<u8> {
    let mut random = Random(9);
    let mut list = || {
        let mut bound = || [vec![4], (0..14).map(|_| 1_000_001 + random.below(1_000_000) as u32).collect()].concat();
        [vec![8], (0..8).flat_map(|_| bound()).collect()].concat()
    };
    let mut numbers = vec![6, 32, 64, 0];
    (0..32).for_each(|_| numbers.extend(list()));
    (0..64).for_each(|i| numbers.extend([vec![i % 32, 31], list(), vec![63]].concat()));
    numbers.extend([vec![31], list(), vec![200]].concat());
    bytes(&numbers)
}

fn models(rows: &mut Vec<Row>) {
    let stale = include_bytes!("../../models/stale.model").to_vec();
    let fresh = include_bytes!("../../models/fresh.model").to_vec();
    let mut add = |family, size, clocks, input| rows.push(Row { family, size, clocks, input });
    for n in [2, 3, 6] {
        for kept in [1, 2, 4, 8, 16, 32, 64] {
            add("walk, states kept", kept, n, Input::Walk { bytes: ticking(n, kept as u32) });
        }
    }
    add("walk of models/stale, states kept", 10, 3, Input::Walk { bytes: stale.clone() });
    add("walk of models/fresh, states kept", 22, 3, Input::Walk { bytes: fresh });
    add("print of models/stale, states kept", 10, 3, Input::Print { bytes: stale.clone() });
    add("print of 63 edges, states kept", 64, 2, Input::Print { bytes: ticking(2, 64) });
    add("rewrite of models/stale, bytes", stale.len(), 3, Input::Rewrite { bytes: stale });
    add("rewrite of the longest model, bytes", 33_664, 6, Input::Rewrite { bytes: longest() });
}

pub fn all() -> Vec<Row> {
    let mut rows = Vec::new();
    for n in 2..=6 {
        for (stay, go) in GROWING {
            let size = stay + stay * go;
            rows.push(Row { family: "intersect, vectors before cleaning", size, clocks: n, input: growing(n, stay, go) });
        }
    }
    for n in [2, 3, 6] {
        typical(&mut rows, n);
    }
    for n in [2, 3, 6] {
        largest(&mut rows, n);
    }
    models(&mut rows);
    rows
}
