// Lists and their sets, in exact numbers without a limit on size.
use super::numbers::{times, Number, LIMIT};
use super::{Refusal, GENS, RANGE};
use std::collections::BTreeSet;

// n clocks and the last entry: 0 for a point, −∞ for a ray.
pub type Vector = Vec<Number>;
pub type List = Vec<Vector>;

pub fn is_point(vector: &Vector) -> bool {
    vector.last().is_some_and(|last| last.is_some())
}

// A point has 0 as its last entry, a ray has 0 as its largest; −∞ only has no such form.
fn normal(vector: &Vector) -> Option<Vector> {
    let last = vector.last().copied().flatten();
    let top = last.or(vector.iter().copied().max().flatten())?;
    Some(vector.iter().map(|&entry| times(entry, Some(-top))).collect())
}

// Shifted so that it meets the target at entry i, the carrier stays below the target everywhere.
fn carries(carrier: &Vector, target: &Vector, i: usize) -> bool {
    let (Some(from), Some(to)) = (carrier[i], target[i]) else { return false };
    carrier.iter().zip(target).all(|(&entry, &most)| times(entry, Some(to - from)) <= most)
}

// The others generate the target exactly if each finite entry of it is carried by one of them.
fn generated(target: &Vector, others: &[&Vector]) -> bool {
    let carried = |i: usize| others.iter().any(|other| carries(other, target, i));
    (0..target.len()).all(|i| target[i].is_none() || carried(i))
}

// Each distinct vector is judged against all other distinct ones, none removed before: an extreme one is never generated.
pub fn canonical(vectors: &[Vector]) -> List {
    let distinct: BTreeSet<Vector> = vectors.iter().filter_map(normal).collect();
    let needed = |vector: &&Vector| {
        let others: Vec<&Vector> = distinct.iter().filter(|other| other != vector).collect();
        !generated(vector, &others)
    };
    let kept: List = distinct.iter().filter(needed).cloned().collect();
    let (points, rays): (List, List) = kept.into_iter().partition(is_point);
    if points.is_empty() {
        Vec::new()
    } else {
        [points, rays].concat()
    }
}

// RANGE and then GENS, on the canonical result.
pub fn fitting(list: List) -> Result<List, Refusal> {
    let outside = |vector: &Vector| {
        let (low, high) = if is_point(vector) { (0, LIMIT) } else { (-LIMIT, 0) };
        vector.iter().flatten().any(|&entry| entry < low || entry > high)
    };
    if list.iter().any(outside) {
        return Err(RANGE);
    }
    if list.len() > 32 {
        Err(GENS)
    } else {
        Ok(list)
    }
}

// The largest weight at which the vector stays below the target: −∞ entries set no bound.
fn weight(vector: &Vector, target: &Vector) -> Number {
    let finite = vector.iter().zip(target).filter(|(entry, _)| entry.is_some());
    finite.map(|(&entry, &most)| times(most, entry.map(|value| -value))).min().flatten()
}

// The entrywise largest of the weighted vectors is the target itself.
fn met(list: &List, target: &Vector) -> bool {
    let weighted: Vec<(Number, &Vector)> = list.iter().map(|vector| (weight(vector, target), vector)).collect();
    let largest = |i: usize| weighted.iter().map(|(by, vector)| times(*by, vector[i])).max().flatten();
    (0..target.len()).all(|i| largest(i) == target[i])
}

pub fn contains(list: &List, point: &Vector) -> bool {
    met(list, point)
}

pub fn included(inner: &List, outer: &List) -> bool {
    !inner.iter().any(is_point) || inner.iter().all(|vector| met(outer, vector))
}

// One side of a half-space: the largest of its entries plus the vector's, the last ones too.
fn side(entries: &[Number], vector: &Vector) -> Number {
    entries.iter().zip(vector).map(|(&entry, &at)| times(entry, at)).max().flatten()
}

fn mixed(one: &Vector, by: Number, other: &Vector, with: Number) -> Vector {
    one.iter().zip(other).map(|(&here, &there)| times(here, by).max(times(there, with))).collect()
}

// The half-space's words are a and b, then c and d.
pub fn intersect(list: &List, half: &[Number]) -> List {
    let (left, right) = half.split_at(half.len() / 2);
    let sides = |vector: &Vector| (side(left, vector), side(right, vector));
    let (stay, go): (List, List) = list.iter().cloned().partition(|vector| sides(vector).0 <= sides(vector).1);
    let mixes = stay.iter().flat_map(|g| go.iter().map(move |h| mixed(g, side(left, h), h, side(right, g))));
    canonical(&stay.iter().cloned().chain(mixes).collect::<List>())
}

// The points stand among the rays too.
pub fn delay(list: &List) -> List {
    let copies = list.iter().filter(|vector| is_point(vector)).map(|point| {
        let clocks = &point[..point.len() - 1];
        [clocks, &[None]].concat()
    });
    canonical(&list.iter().cloned().chain(copies).collect::<List>())
}

pub fn reset(list: &List, clock: usize, value: i64) -> List {
    let replaced = |vector: &Vector| {
        let mut after = vector.clone();
        after[clock] = is_point(vector).then_some(value);
        after
    };
    canonical(&list.iter().map(replaced).collect::<List>())
}

// Of a list without points nothing is taken.
pub fn hull(first: &List, second: &List) -> List {
    let taken = [first, second].into_iter().filter(|list| list.iter().any(is_point));
    canonical(&taken.flatten().cloned().collect::<List>())
}
