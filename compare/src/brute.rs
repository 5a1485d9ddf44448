// Meaning only: sets over small boxes by their definition, runs by explicit states. No generator is cleaned or cut here.
use crate::rule::model::{Bound, Edge, Model};
use crate::rule::numbers::MARK;

// A set of clock values from 0 to a ceiling, one place for each.
#[derive(Clone, PartialEq)]
pub struct Cells {
    pub n: usize,
    pub ceiling: i32,
    pub held: Vec<bool>,
}

// The place of clock values in a table of `base` values a clock.
fn place(clocks: &[i32], base: i32) -> usize {
    clocks.iter().fold(0, |at, &clock| at * base as usize + clock as usize)
}

fn clocks_at(mut at: usize, n: usize, base: i32) -> Vec<i32> {
    let mut clocks = vec![0; n];
    for clock in clocks.iter_mut().rev() {
        *clock = (at % base as usize) as i32;
        at /= base as usize;
    }
    clocks
}

impl Cells {
    pub fn new(n: usize, ceiling: i32) -> Cells {
        Cells { n, ceiling, held: vec![false; (ceiling as usize + 1).pow(n as u32)] }
    }

    pub fn at(&self, at: usize) -> Vec<i32> {
        clocks_at(at, self.n, self.ceiling + 1)
    }

    pub fn all(&self) -> impl Iterator<Item = Vec<i32>> + '_ {
        (0..self.held.len()).map(|at| self.at(at))
    }

    pub fn members(&self) -> impl Iterator<Item = Vec<i32>> + '_ {
        self.all().filter(|clocks| self.has(clocks))
    }

    pub fn has(&self, clocks: &[i32]) -> bool {
        clocks.iter().all(|clock| (0..=self.ceiling).contains(clock)) && self.held[place(clocks, self.ceiling + 1)]
    }

    // Values outside the box are left out.
    pub fn add(&mut self, clocks: &[i32]) {
        if clocks.iter().all(|clock| (0..=self.ceiling).contains(clock)) {
            self.held[place(clocks, self.ceiling + 1)] = true;
        }
    }

    pub fn is_empty(&self) -> bool {
        !self.held.contains(&true)
    }

    // The same set in a smaller box.
    pub fn lowered(&self, ceiling: i32) -> Cells {
        let mut lower = Cells::new(self.n, ceiling);
        self.members().for_each(|clocks| lower.add(&clocks));
        lower
    }
}

fn is_point(vector: &[i32]) -> bool {
    vector.last() == Some(&0)
}

// The clocks of scalar + vector; what is below 0 or −∞ stands as −1, since it never is the largest at a member.
fn scaled(vector: &[i32], scalar: i32) -> Vec<i32> {
    let clocks = &vector[..vector.len() - 1];
    clocks.iter().map(|&word| if word == MARK { -1 } else { (word + scalar).max(-1) }).collect()
}

fn largest(one: &[i32], other: &[i32]) -> Vec<i32> {
    one.iter().zip(other).map(|(&a, &b)| a.max(b)).collect()
}

// All that scalars make of vectors, each entry from −1 to its own most, with and without a point at scalar 0.
struct Partial {
    most: Vec<i32>,
    held: [Vec<bool>; 2],
}

impl Partial {
    fn new(most: Vec<i32>) -> Partial {
        let size = most.iter().map(|top| (top + 2) as usize).product();
        Partial { most, held: [vec![false; size], vec![false; size]] }
    }

    fn add(&mut self, entries: &[i32], zero: bool) {
        let pairs = || entries.iter().zip(&self.most);
        if pairs().all(|(entry, top)| entry <= top) {
            let at = pairs().fold(0, |at, (entry, top)| at * (top + 2) as usize + (entry + 1) as usize);
            self.held[zero as usize][at] = true;
        }
    }

    fn entries(&self, mut at: usize) -> Vec<i32> {
        let mut entries = self.most.clone();
        for entry in entries.iter_mut().rev() {
            let base = (*entry + 2) as usize;
            *entry = (at % base) as i32 - 1;
            at /= base;
        }
        entries
    }

    fn list(&self) -> Vec<(Vec<i32>, bool)> {
        let half = |zero: bool| {
            let held = &self.held[zero as usize];
            (0..held.len()).filter(|&at| held[at]).map(move |at| (self.entries(at), zero))
        };
        half(false).chain(half(true)).collect()
    }
}

// Below the first scalar all is below 0, where the point at scalar 0 is not; above the last an entry is over its most for good.
fn scalars(vector: &[i32], most: &[i32]) -> std::ops::RangeInclusive<i32> {
    let clocks = &vector[..most.len()];
    let top = *clocks.iter().max().expect("a clock");
    let finite = clocks.iter().zip(most).filter(|(&word, _)| word != MARK);
    let last = finite.map(|(word, most)| most - word).min().expect("a number");
    -top..=if is_point(vector) { last.min(0) } else { last }
}

fn combinations(n: usize, list: &[i32], most: Vec<i32>) -> Partial {
    let mut partial = Partial::new(most);
    partial.add(&vec![-1; n], false);
    for vector in list.chunks(n + 1) {
        let range = scalars(vector, &partial.most);
        for (entries, zero) in partial.list() {
            for scalar in range.clone() {
                let now_zero = zero || (is_point(vector) && scalar == 0);
                partial.add(&largest(&entries, &scaled(vector, scalar)), now_zero);
            }
        }
    }
    partial
}

// The set of a list in the box, by trying every scalar that can matter; the largest scalar of a point is 0.
pub fn members(n: usize, list: &[i32], ceiling: i32) -> Cells {
    let mut cells = Cells::new(n, ceiling);
    for (entries, zero) in combinations(n, list, vec![ceiling; n]).list() {
        if zero {
            cells.add(&entries);
        }
    }
    cells
}

// A half-space asked of clock values, by its words.
pub fn satisfies(half: &[i32], clocks: &[i32]) -> bool {
    let n = clocks.len();
    let plus = |word: i32, clock: i32| (word != MARK).then_some(word as i64 + clock as i64);
    let side = |words: &[i32]| {
        let sums = words[..n].iter().zip(clocks).map(|(&word, &clock)| plus(word, clock));
        sums.chain([plus(words[n], 0)]).max().flatten()
    };
    side(&half[..n + 1]) <= side(&half[n + 1..])
}

pub fn intersect(set: &Cells, half: &[i32]) -> Cells {
    let mut made = Cells::new(set.n, set.ceiling);
    set.members().filter(|clocks| satisfies(half, clocks)).for_each(|clocks| made.add(&clocks));
    made
}

// All x + δ: what is in the box came from the box, since no clock is below 0.
pub fn delay(set: &Cells) -> Cells {
    let mut made = Cells::new(set.n, set.ceiling);
    for clocks in set.members() {
        for ticks in 0..=set.ceiling {
            made.add(&clocks.iter().map(|clock| clock + ticks).collect::<Vec<i32>>());
        }
    }
    made
}

pub fn reset(set: &Cells, clock: usize, value: i32) -> Cells {
    let mut made = Cells::new(set.n, set.ceiling);
    for mut clocks in set.members() {
        clocks[clock] = value;
        made.add(&clocks);
    }
    made
}

// Members lowered by each scalar from `least` to 0; below it no point's part is above −1, and rays keep their own scalars.
fn lowered_members(set: &Cells, least: i32, ceiling: i32) -> Vec<Vec<i32>> {
    let mut partial = Partial::new(vec![ceiling; set.n]);
    for clocks in set.members() {
        for scalar in least..=0 {
            partial.add(&clocks.iter().map(|clock| (clock + scalar).max(-1)).collect::<Vec<i32>>(), false);
        }
    }
    partial.list().into_iter().map(|(entries, _)| entries).collect()
}

// x is in the hull exactly if it is the largest of one member of each set, with scalars whose largest is 0.
pub fn hull(first: &Cells, second: &Cells, least: i32, ceiling: i32) -> Cells {
    let mut made = Cells::new(first.n, ceiling);
    for set in [first, second].into_iter().filter(|_| first.is_empty() || second.is_empty()) {
        set.members().for_each(|clocks| made.add(&clocks));
    }
    for (whole, part) in [(first, second), (second, first)] {
        let parts = lowered_members(part, least, ceiling);
        for clocks in whole.lowered(ceiling).members() {
            parts.iter().for_each(|entries| made.add(&largest(&clocks, entries)));
        }
    }
    made
}

// A ray is made by other rays, by trying every scalar; a ray with a number where the tested one has −∞ takes no part.
fn ray_made(n: usize, ray: &[i32], others: &[&[i32]]) -> bool {
    let least = ray[..n].iter().filter(|&&word| word != MARK).min().expect("a number");
    let raised = scaled(ray, -least);
    let silent = |other: &&&[i32]| (0..n).all(|i| ray[i] != MARK || other[i] == MARK);
    let list: Vec<i32> = others.iter().filter(silent).flat_map(|other| other.iter().copied()).collect();
    combinations(n, &list, raised.clone()).list().iter().any(|(entries, _)| *entries == raised)
}

fn point_made(n: usize, point: &[i32], others: &[&[i32]]) -> bool {
    let clocks = &point[..n];
    combinations(n, &others.concat(), clocks.to_vec()).list().iter().any(|(entries, zero)| *zero && entries == clocks)
}

// Membership of one vector of clock values, of any size.
pub fn is_member(n: usize, list: &[i32], clocks: &[i32]) -> bool {
    point_made(n, clocks, &[list])
}

// The order of a canonical list: points first, each kind in rising order; the mark is below all words.
fn in_order(list: &[i32], n: usize) -> bool {
    let rank = |vector: &[i32]| (!is_point(vector), vector.to_vec());
    list.chunks(n + 1).zip(list.chunks(n + 1).skip(1)).all(|(one, next)| rank(one) < rank(next))
}

// The four demands on a canonical list, each by its words.
pub fn is_canonical(n: usize, list: &[i32]) -> bool {
    let vectors: Vec<&[i32]> = list.chunks(n + 1).collect();
    let needed = |i: usize| {
        let rays = |j: &usize| is_point(vectors[i]) || !is_point(vectors[*j]);
        let others: Vec<&[i32]> = (0..vectors.len()).filter(|j| *j != i).filter(rays).map(|j| vectors[j]).collect();
        if is_point(vectors[i]) {
            !point_made(n, vectors[i], &others)
        } else {
            !ray_made(n, vectors[i], &others)
        }
    };
    let shifted = |vector: &&&[i32]| is_point(vector) || vector[..n].iter().max() == Some(&0);
    let behind = vectors.is_empty() || is_point(vectors[0]);
    behind && in_order(list, n) && vectors.iter().all(|vector| shifted(&vector)) && (0..vectors.len()).all(needed)
}

// One bound in its own arithmetic.
fn bound_holds(bound: &Bound, clocks: &[i32]) -> bool {
    let at = |x: usize| clocks[x] as i64;
    match bound {
        Bound::AtMost { x, k } => at(*x) <= *k,
        Bound::AtLeast { x, k } => at(*x) >= *k,
        Bound::ApartAtMost { x, y, k } => at(*x) - at(*y) <= *k,
        Bound::ApartAtLeast { x, y, k } => at(*x) - at(*y) >= *k,
        Bound::Half(entries) => {
            let words: Vec<i32> = entries.iter().map(|entry| entry.map_or(MARK, |value| value as i32)).collect();
            satisfies(&words, clocks)
        }
    }
}

pub fn hold(bounds: &[Bound], clocks: &[i32]) -> bool {
    bounds.iter().all(|bound| bound_holds(bound, clocks))
}

// Explicit runs over clock values from 0 to a ceiling; `alike`: at the ceiling time goes on and the values stay.
pub struct Runs<'a> {
    pub model: &'a Model,
    pub ceiling: i32,
    pub alike: bool,
}

impl Runs<'_> {
    fn ticked(&self, clocks: &[i32]) -> Option<Vec<i32>> {
        let next: Vec<i32> = clocks.iter().map(|clock| clock + 1).collect();
        if self.alike {
            return Some(next.iter().map(|&clock| clock.min(self.ceiling)).collect());
        }
        next.iter().all(|&clock| clock <= self.ceiling).then_some(next)
    }

    // Adds the clock values and all that ticks make of them while the invariant holds; the new ones go to `fresh`.
    fn enter(&self, location: usize, clocks: Vec<i32>, seen: &mut Cells, fresh: &mut Vec<Vec<i32>>) {
        let mut now = Some(clocks);
        while let Some(clocks) = now.filter(|clocks| hold(&self.model.invariants[location], clocks) && !seen.has(clocks)) {
            seen.add(&clocks);
            now = self.ticked(&clocks);
            fresh.push(clocks);
        }
    }

    fn taken(&self, edge: &Edge, clocks: &[i32]) -> Option<Vec<i32>> {
        let after = |(i, &clock): (usize, &i32)| if edge.resets >> i & 1 == 1 { 0 } else { clock };
        hold(&edge.guard, clocks).then(|| clocks.iter().enumerate().map(after).collect())
    }

    fn start(&self, seen: &mut [Cells]) -> Vec<Vec<i32>> {
        let mut fresh = Vec::new();
        let initial = self.model.initial;
        self.enter(initial, vec![0; self.model.clocks], &mut seen[initial], &mut fresh);
        fresh
    }

    fn empty(&self) -> Vec<Cells> {
        vec![Cells::new(self.model.clocks, self.ceiling); self.model.invariants.len()]
    }

    // The states first met with each number of edges, until no more are met.
    pub fn layers(&self) -> Vec<Vec<(usize, Vec<i32>)>> {
        let mut seen = self.empty();
        let mut layers: Vec<Vec<(usize, Vec<i32>)>> = Vec::new();
        let mut layer: Vec<_> = self.start(&mut seen).into_iter().map(|clocks| (self.model.initial, clocks)).collect();
        while !layer.is_empty() {
            let mut next = Vec::new();
            for (location, clocks) in &layer {
                for edge in self.model.edges.iter().filter(|edge| edge.source == *location) {
                    let mut fresh = Vec::new();
                    if let Some(after) = self.taken(edge, clocks) {
                        self.enter(edge.destination, after, &mut seen[edge.destination], &mut fresh);
                    }
                    next.extend(fresh.into_iter().map(|clocks| (edge.destination, clocks)));
                }
            }
            layers.push(std::mem::replace(&mut layer, next));
        }
        layers
    }

    pub fn at_target(&self, state: &(usize, Vec<i32>)) -> bool {
        state.0 == self.model.target && hold(&self.model.goal, &state.1)
    }

    // Some run along exactly these edges reaches the target.
    pub fn along(&self, edges: &[usize]) -> bool {
        let mut now = self.start(&mut self.empty());
        let mut location = self.model.initial;
        for &number in edges {
            let edge = &self.model.edges[number];
            if edge.source != location {
                return false;
            }
            location = edge.destination;
            let mut seen = Cells::new(self.model.clocks, self.ceiling);
            let mut next = Vec::new();
            for after in now.iter().filter_map(|clocks| self.taken(edge, clocks)) {
                self.enter(location, after, &mut seen, &mut next);
            }
            now = next;
        }
        now.into_iter().any(|clocks| self.at_target(&(location, clocks)))
    }
}
