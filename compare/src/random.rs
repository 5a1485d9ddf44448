// A small seeded generator, and the inputs that it makes.
use crate::rule::model::{groups, numbers, written, Bound, Edge, Model};
use crate::rule::numbers::{number, MARK};
use crate::rule::sets;
use crate::rule::text::TEXT;

pub struct Random {
    state: u64,
}

impl Random {
    pub fn new(seed: u64) -> Random {
        Random { state: seed }
    }

    // One step of splitmix64.
    pub fn next(&mut self) -> u64 {
        self.state = self.state.wrapping_add(0x9E37_79B9_7F4A_7C15);
        let mixed = (self.state ^ (self.state >> 30)).wrapping_mul(0xBF58_476D_1CE4_E5B9);
        let mixed = (mixed ^ (mixed >> 27)).wrapping_mul(0x94D0_49BB_1331_11EB);
        mixed ^ (mixed >> 31)
    }

    pub fn below(&mut self, count: usize) -> usize {
        (self.next() % count as u64) as usize
    }

    pub fn between(&mut self, low: i64, high: i64) -> i64 {
        low + (self.next() % (high - low + 1) as u64) as i64
    }

    pub fn chance(&mut self, percent: usize) -> bool {
        self.below(100) < percent
    }

    pub fn pick<T: Copy>(&mut self, from: &[T]) -> T {
        from[self.below(from.len())]
    }

    // Never 0.
    pub fn filled_words(&mut self, count: usize) -> Vec<i32> {
        let first = self.next() as i32;
        (0..count).map(|i| first.wrapping_add(i as i32 * 77) | 1).collect()
    }

    pub fn filled_bytes(&mut self, count: usize) -> Vec<u8> {
        let first = self.next() as u8;
        (0..count).map(|i| first.wrapping_add(i as u8) | 1).collect()
    }

    pub fn filled_text(&mut self) -> [u8; TEXT] {
        self.filled_bytes(TEXT).try_into().expect("a text area")
    }

    pub fn filled_counts(&mut self) -> [u64; 3] {
        std::array::from_fn(|_| self.next() | 1)
    }
}

// Which entries a list or half-space has.
#[derive(Clone, Copy, PartialEq)]
pub enum Style {
    Small(i64),
    Limits,
    Wide,
}

fn entry(random: &mut Random, style: Style, low: i64, high: i64) -> i64 {
    match style {
        Style::Small(most) => random.between(low.max(-most), high.min(most)),
        Style::Limits => random.pick(&[low, low + 1, -1, 0, 1, 2, high / 2, high - 1, high]).max(low),
        Style::Wide => random.between(low, high),
    }
}

pub fn style(random: &mut Random) -> Style {
    let small = Style::Small(random.pick(&[1, 2, 3, 6, 20, 60]));
    random.pick(&[small, small, Style::Limits, Style::Wide])
}

fn point(random: &mut Random, n: usize, style: Style) -> Vec<i32> {
    let clocks = (0..n).map(|_| entry(random, style, 0, 1_000_000) as i32);
    clocks.chain([0]).collect()
}

fn ray(random: &mut Random, n: usize, style: Style) -> Vec<i32> {
    let gap = random.pick(&[0, 20, 50, 80]);
    let one = random.below(n);
    let clock = |i: usize| {
        let word = entry(random, style, -1_000_000, 1_000_000) as i32;
        if i != one && random.chance(gap) {
            MARK
        } else {
            word
        }
    };
    (0..n).map(clock).chain([MARK]).collect()
}

pub fn vectors(random: &mut Random, n: usize, style: Style, count: usize) -> Vec<i32> {
    let rays = random.pick(&[0, 20, 20, 40, 40, 60, 60, 100]);
    (0..count).flat_map(|_| if random.chance(rays) { ray(random, n, style) } else { point(random, n, style) }).collect()
}

// Points that no others generate: one clock against the others, in turned order.
fn chain(random: &mut Random, n: usize, count: usize) -> Vec<i32> {
    let (step, turn, first) = (random.pick(&[1, 2, 1000, 15_000]), random.below(n), random.below(64));
    let clock = |at: usize, i: usize| if i == turn { at * step } else { (63 - at) * step + i };
    let one = |at: usize| (0..n).map(move |i| clock((first + 5 * at) % 64, i) as i32).chain([0]);
    (0..count).flat_map(one).collect()
}

// The canonical list of a list, by the rule and without its limits.
fn canonical(n: usize, list: &[i32]) -> Vec<i32> {
    let vectors: Vec<_> = list.chunks(n + 1).map(|words| words.iter().map(|&word| number(word)).collect()).collect();
    let fitting = sets::fitting(sets::canonical(&vectors)).unwrap_or_default();
    fitting.into_iter().flatten().map(crate::rule::numbers::word).collect()
}

// A list in limits: canonical and not, with equal vectors, few and many.
pub fn list(random: &mut Random, n: usize) -> Vec<i32> {
    let style = style(random);
    let most = random.pick(&[3, 6, 6, 12, 33]);
    let count = random.below(most);
    let long = random.pick(&[15, 20, 31, 32]);
    let mut list = if random.chance(8) { chain(random, n, long) } else { vectors(random, n, style, count) };
    let now = list.len() / (n + 1);
    if now > 0 && now < 32 && random.chance(25) {
        let at = random.below(now) * (n + 1);
        list.extend_from_within(at..at + n + 1);
    }
    if random.chance(35) {
        canonical(n, &list)
    } else {
        list
    }
}

// Words that are out of some limit.
const ODD: [i32; 12] = [-1, 1, 1_000_001, -1_000_001, MARK, MARK + 1, i32::MAX, 1_000_000, -1_000_000, 0, 2, -2_000_000];

// One word changed, a word too many or too few, or too many vectors.
pub fn damaged_list(random: &mut Random, n: usize, mut list: Vec<i32>) -> Vec<i32> {
    match random.below(8) {
        0 => list.push(random.pick(&ODD)),
        1 => drop(list.pop()),
        2 => list = vectors(random, n, Style::Small(3), 33),
        3 => list.extend([&vec![MARK; n][..], &[MARK]].concat()),
        _ if !list.is_empty() => {
            let at = random.below(list.len());
            list[at] = random.pick(&ODD);
        }
        _ => (),
    }
    list
}

// A list that is damaged once in a while.
pub fn any_list(random: &mut Random, n: usize) -> Vec<i32> {
    let good = list(random, n);
    if random.chance(8) {
        damaged_list(random, n, good)
    } else {
        good
    }
}

// A half-space; its left side often has fewer entries, so that it is not often empty.
pub fn half(random: &mut Random, n: usize, style: Style) -> Vec<i32> {
    let (left, right) = random.pick(&[(20, 20), (50, 50), (80, 80), (75, 40), (80, 30), (85, 50)]);
    let word = |i| {
        let word = entry(random, style, -1_000_000, 1_000_000) as i32;
        if random.chance(if i <= n { left } else { right }) {
            MARK
        } else {
            word
        }
    };
    (0..2 * n + 2).map(word).collect()
}

// Often a point of the list, moved a little; sometimes damaged.
pub fn tested_point(random: &mut Random, n: usize, list: &[i32]) -> Vec<i32> {
    let mut point: Vec<i32> = (0..n).map(|_| random.between(0, 8) as i32).collect();
    let points: Vec<&[i32]> = list.chunks_exact(n + 1).filter(|vector| vector[n] == 0).collect();
    if !points.is_empty() && random.chance(80) {
        let by = random.pick(&[0, 0, 1, 5]);
        point = random.pick(&points)[..n].iter().map(|word| word.saturating_add(by)).collect();
    }
    if random.chance(25) {
        point[random.below(n)] = random.pick(&[0, 1, 3, 1_000_000, 1_000_001, -1, MARK, i32::MAX]);
    }
    if random.chance(4) {
        point.resize(random.below(9), 1);
    }
    point
}

// The number of clocks: nearly always 1 to 6.
pub fn clocks(random: &mut Random) -> usize {
    let n = 1 + random.below(6);
    if random.chance(2) {
        random.pick(&[0, 7, 8, 100, usize::MAX])
    } else {
        n
    }
}

// A length of an area that needs `least`: enough, just enough, or too short.
pub fn length(random: &mut Random, least: usize) -> usize {
    match random.below(20) {
        0 => random.below(least + 1),
        1 => least.saturating_sub(1),
        2..=9 => least,
        _ => least + random.below(40),
    }
}

// What a random model is like.
#[derive(Clone, Copy)]
pub struct Plan {
    pub clocks: usize,
    pub locations: usize,
    pub edges: usize,
    pub bounds: usize,
    pub style: Style,
    pub kinds: &'static [u8],
    pub depth: usize,
}

fn other(random: &mut Random, n: usize, x: usize) -> usize {
    (x + 1 + random.below(n - 1)) % n
}

pub fn bound(random: &mut Random, plan: &Plan) -> Bound {
    let n = plan.clocks;
    let x = random.below(n);
    let plain = entry(random, plan.style, 0, 1_000_000);
    let signed = entry(random, plan.style, -1_000_000, 1_000_000);
    match random.pick(plan.kinds) {
        1 => Bound::AtLeast { x, k: plain },
        2 if n > 1 => Bound::ApartAtMost { x, y: other(random, n, x), k: signed },
        3 if n > 1 => Bound::ApartAtLeast { x, y: other(random, n, x), k: signed },
        4 => Bound::Half(half(random, n, plan.style).into_iter().map(number).collect()),
        5 => against_constants(random, n, plain),
        _ => Bound::AtMost { x, k: plain },
    }
}

// A half-space that asks the largest of some clocks against a constant.
fn against_constants(random: &mut Random, n: usize, k: i64) -> Bound {
    let mut entries = vec![None; 2 * n + 2];
    let first = if random.chance(50) { 0 } else { n + 1 };
    let constant = if first == 0 { 2 * n + 1 } else { n };
    entries[constant] = Some(k);
    (first..first + n).for_each(|i| entries[i] = random.chance(60).then_some(0));
    Bound::Half(entries)
}

fn bounds(random: &mut Random, plan: &Plan) -> Vec<Bound> {
    let count = random.below(plan.bounds + 1);
    (0..count).map(|_| bound(random, plan)).collect()
}

// Half of the edges lead on to the next location, so that runs go far.
fn edge(random: &mut Random, plan: &Plan) -> Edge {
    let source = random.below(plan.locations);
    let next = (source + 1) % plan.locations;
    let destination = if random.chance(50) { next } else { random.below(plan.locations) };
    let resets = (random.next() & random.next()) as u32 % (1 << plan.clocks);
    Edge { source, destination, guard: bounds(random, plan), resets }
}

pub fn model(random: &mut Random, plan: &Plan) -> Model {
    let initial = random.below(plan.locations);
    let far = (initial + plan.locations - 1) % plan.locations;
    Model {
        clocks: plan.clocks,
        initial,
        invariants: (0..plan.locations).map(|_| bounds(random, plan)).collect(),
        edges: (0..plan.edges).map(|_| edge(random, plan)).collect(),
        target: if random.chance(70) { far } else { random.below(plan.locations) },
        goal: bounds(random, plan),
        depth: plan.depth,
    }
}

// A plan for models of all kinds; sometimes with many locations, edges and bounds.
pub fn plan(random: &mut Random) -> Plan {
    let large = random.chance(4);
    let depth = random.pick(&[0, 1, 2, 3, 5, 8, 200]);
    Plan {
        clocks: 1 + random.below(6),
        locations: 1 + random.below(if large { 32 } else { 4 }),
        edges: random.below(if large { 65 } else { 10 }),
        bounds: random.pick(&[0, 1, 1, 2, 2, 3]) + if large { random.below(6) } else { 0 },
        style: style(random),
        kinds: random.pick(&[&[0, 1][..], &[1, 1, 5], &[0, 1, 2, 3], &[0, 0, 1, 1, 2, 3, 4], &[4], &[0, 1, 5]]),
        depth: if large { depth.min(3) } else { depth },
    }
}

// A model of few bytes.
pub fn small_model(random: &mut Random) -> Model {
    let any = plan(random);
    let (locations, edges) = (any.locations.min(3), any.edges.min(3));
    model(random, &Plan { locations, edges, bounds: any.bounds.min(2), depth: any.depth.min(2), ..any })
}

// A model with every count at its limit and every entry of three bytes: 33,664 bytes.
pub fn longest_model(random: &mut Random) -> Model {
    let list = |random: &mut Random| vec![Bound::Half(vec![Some(random.between(-1_000_000, -999_000)); 14]); 8];
    Model {
        clocks: 6,
        initial: 0,
        invariants: (0..32).map(|_| list(random)).collect(),
        edges: (0..64).map(|_| Edge { source: 1, destination: 31, guard: list(random), resets: 63 }).collect(),
        target: 31,
        goal: list(random),
        depth: 200,
    }
}

// A half-space with one clock on the left side and several others on the right, which leaves many vectors.
fn growing_cut(random: &mut Random, times: i64) -> Bound {
    let mut entries = vec![None; 14];
    let x = random.below(6);
    entries[x] = Some(random.between(0, 9) * times);
    for i in (7..14).filter(|i| *i != x + 7) {
        entries[i] = random.chance(50).then(|| random.between(-6, 9) * times);
    }
    Bound::Half(entries)
}

// Three half-spaces that leave 33 vectors of the last state of a growing model: place and value of each finite entry.
const THREE: [&[(usize, i64)]; 3] = [
    &[(0, -2), (3, 3), (8, 0), (9, 2), (12, -5), (13, 6)],
    &[(1, 9), (7, 8), (12, 6)],
    &[(3, 6), (7, 0), (9, 3), (11, 7), (12, -1)],
];

// The three with some entries changed.
fn near_three(random: &mut Random, times: i64) -> Vec<Bound> {
    let changes = random.pick(&[0, 2, 5, 10]);
    let one = |finite: &[(usize, i64)]| {
        let mut entries = vec![None; 14];
        for &(place, value) in finite {
            let other = value + random.between(-3, 3);
            entries[place] = Some(times * if random.chance(changes) { other } else { value });
        }
        Bound::Half(entries)
    };
    THREE.into_iter().map(one).collect()
}

// Six clocks, each step resets one, and half-spaces cut the last state: as guard, invariant or target.
pub fn growing_model(random: &mut Random) -> Model {
    let edge = |source: usize, guard: Vec<Bound>, resets: u32| Edge { source, destination: source + 1, guard, resets };
    let times = random.pick(&[1, 1, 2, 1000, 111_111]);
    let (count, place) = (3 + random.below(5), random.below(3));
    let near = random.chance(60);
    let cuts: Vec<Bound> =
        if near { near_three(random, times) } else { (0..count).map(|_| growing_cut(random, times)).collect() };
    let at = |wanted: usize| if place == wanted { cuts.clone() } else { Vec::new() };
    let mut edges: Vec<Edge> = (0..5).map(|i| edge(i, Vec::new(), 1 << i)).collect();
    edges.push(edge(5, at(0), 0));
    let mut invariants = vec![Vec::new(); 7];
    invariants[6] = at(1);
    Model { clocks: 6, initial: 0, invariants, edges, target: 6, goal: at(2), depth: 8 }
}

// Clocks at the largest values: one clock is brought up, another reset, and then that one is asked for more.
pub fn stretched_model(random: &mut Random) -> Model {
    let clocks = 1 + random.below(6);
    let plan = Plan { clocks, locations: 4, edges: 3, bounds: 1, style: Style::Limits, kinds: &[1, 1, 1, 3, 4], depth: 5 };
    let mut made = model(random, &plan);
    made.initial = 0;
    made.target = 3;
    made.invariants.iter_mut().for_each(|list| {
        if random.chance(80) {
            list.clear()
        }
    });
    for (i, edge) in made.edges.iter_mut().enumerate() {
        (edge.source, edge.destination) = (i, i + 1);
        let k = random.pick(&[1, 2, 999_999, 1_000_000]);
        edge.guard.insert(0, Bound::AtLeast { x: random.below(clocks), k });
    }
    made
}

// A long path: at each tick one edge is taken, and clock 1 tells how many; the first edges of a location are never open.
pub fn long_model(random: &mut Random) -> Model {
    let locations = 1 + random.below(32);
    let edges = locations + random.below(65 - locations);
    let steps = random.pick(&[3, 20, 61, 62, 63, 64]);
    let edge = |e: usize| Edge {
        source: e % locations,
        destination: (e % locations + 1) % locations,
        guard: vec![Bound::AtLeast { x: 0, k: if e + locations < edges { 2 } else { 1 } }],
        resets: 1,
    };
    Model {
        clocks: 2,
        initial: 0,
        invariants: vec![vec![Bound::AtMost { x: 0, k: 1 }]; locations],
        edges: (0..edges).map(edge).collect(),
        target: steps % locations,
        goal: vec![Bound::AtLeast { x: 1, k: steps as i64 }],
        depth: random.pick(&[steps - 1, steps, steps + 1, 200]),
    }
}

// Numbers at and around the limits of the fields.
const ENDS: [i64; 22] =
    [0, 1, 2, 4, 5, 6, 7, 8, 9, 31, 32, 33, 63, 64, 65, 200, 201, 1_000_000, 1_000_001, 2_000_000, 2_000_001, 2_000_002];

// One number set to a limit's end, its neighbour, or the largest that three groups hold.
pub fn with_other_number(random: &mut Random, model: &Model) -> Vec<u8> {
    let mut run = numbers(model);
    let at = random.below(run.len());
    run[at] = match random.below(4) {
        0 => (run[at] + random.pick(&[-1, 1])).max(0),
        1 => 2_097_151,
        _ => random.pick(&ENDS),
    };
    run.into_iter().flat_map(groups).collect()
}

// One number not in its shortest form, or with four groups.
pub fn with_long_number(random: &mut Random, model: &Model) -> Vec<u8> {
    let run = numbers(model);
    let at = random.below(run.len());
    let more = 1 + random.below(3);
    let long = |value: i64| {
        let mut bytes = groups(value);
        for _ in 0..more {
            *bytes.last_mut().expect("a group") |= 128;
            bytes.push(0);
        }
        bytes
    };
    run.into_iter().enumerate().flat_map(|(i, value)| if i == at { long(value) } else { groups(value) }).collect()
}

// A byte changed, the end cut off, bytes behind the end, a byte in between, or a byte taken out.
pub fn damaged_bytes(random: &mut Random, model: &Model) -> Vec<u8> {
    let mut bytes = written(model);
    let at = random.below(bytes.len());
    match random.below(7) {
        0 => bytes[at] = random.next() as u8,
        1 => bytes[at] ^= 128,
        2 => bytes.truncate(at),
        3 => bytes.extend(vec![random.next() as u8; 1 + at % 5]),
        4 => bytes.insert(at, random.next() as u8),
        5 => drop(bytes.remove(at)),
        _ => bytes[at] = bytes[at].wrapping_add(1),
    }
    bytes
}
