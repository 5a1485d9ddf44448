// The set calls on words: the refusals in their order, the answer, and the area afterwards.
use super::numbers::{number, word, LIMIT, MARK};
use super::sets::{self, List};
use super::{Refusal, ARG, ENTRY, SHAPE};

fn demand(holds: bool, refusal: Refusal) -> Result<(), Refusal> {
    if holds {
        Ok(())
    } else {
        Err(refusal)
    }
}

fn shape_of_clocks(n: usize) -> Result<(), Refusal> {
    demand((1..=6).contains(&n), SHAPE)
}

fn shape_of_list(n: usize, list: &[i32]) -> Result<(), Refusal> {
    demand(list.chunks_exact(n + 1).remainder().is_empty() && list.len() <= 32 * (n + 1), SHAPE)
}

fn shape_of_area(n: usize, area: &[i32]) -> Result<(), Refusal> {
    demand(area.len() >= 32 * (n + 1), SHAPE)
}

fn point_entry(word: &i32) -> bool {
    (0..=LIMIT).contains(&(*word as i64))
}

fn finite_entry(word: &i32) -> bool {
    (-LIMIT..=LIMIT).contains(&(*word as i64))
}

fn entry_of_vector(words: &[i32]) -> bool {
    let (last, clocks) = words.split_last().expect("a vector");
    let ray = || clocks.iter().all(|w| *w == MARK || finite_entry(w)) && clocks.iter().any(|w| *w != MARK);
    (*last == 0 && clocks.iter().all(point_entry)) || (*last == MARK && ray())
}

fn entries_of_list(n: usize, list: &[i32]) -> Result<List, Refusal> {
    demand(list.chunks(n + 1).all(entry_of_vector), ENTRY)?;
    Ok(list.chunks(n + 1).map(|words| words.iter().map(|&w| number(w)).collect()).collect())
}

// A result fills the start of its area; the answer is the count of vectors.
fn filled(list: List, area: &mut [i32]) -> i64 {
    for (place, entry) in area.iter_mut().zip(list.iter().flatten()) {
        *place = word(*entry);
    }
    list.len() as i64
}

fn answered(result: Result<i64, Refusal>) -> i64 {
    result.unwrap_or_else(|refusal| -refusal)
}

fn try_contains(n: usize, list: &[i32], point: &[i32]) -> Result<i64, Refusal> {
    shape_of_clocks(n)?;
    shape_of_list(n, list)?;
    demand(point.len() == n, SHAPE)?;
    let list = entries_of_list(n, list)?;
    demand(point.iter().all(point_entry), ENTRY)?;
    let tested = point.iter().map(|&w| number(w)).chain([Some(0)]).collect();
    Ok(sets::contains(&list, &tested) as i64)
}

fn try_included(n: usize, inner: &[i32], outer: &[i32]) -> Result<i64, Refusal> {
    shape_of_clocks(n)?;
    shape_of_list(n, inner)?;
    shape_of_list(n, outer)?;
    Ok(sets::included(&entries_of_list(n, inner)?, &entries_of_list(n, outer)?) as i64)
}

fn try_intersect(n: usize, list: &[i32], half: &[i32], out: &mut [i32]) -> Result<i64, Refusal> {
    shape_of_clocks(n)?;
    shape_of_list(n, list)?;
    demand(half.len() == 2 * (n + 1), SHAPE)?;
    shape_of_area(n, out)?;
    let list = entries_of_list(n, list)?;
    demand(half.iter().all(|w| *w == MARK || finite_entry(w)), ENTRY)?;
    let half: Vec<_> = half.iter().map(|&w| number(w)).collect();
    Ok(filled(sets::fitting(sets::intersect(&list, &half))?, out))
}

fn try_delay(n: usize, list: &[i32], out: &mut [i32]) -> Result<i64, Refusal> {
    shape_of_clocks(n)?;
    shape_of_list(n, list)?;
    shape_of_area(n, out)?;
    let list = entries_of_list(n, list)?;
    Ok(filled(sets::fitting(sets::delay(&list))?, out))
}

fn try_reset(n: usize, list: &[i32], clock: usize, value: i32, out: &mut [i32]) -> Result<i64, Refusal> {
    shape_of_clocks(n)?;
    shape_of_list(n, list)?;
    shape_of_area(n, out)?;
    let list = entries_of_list(n, list)?;
    demand(clock < n && point_entry(&value), ARG)?;
    Ok(filled(sets::fitting(sets::reset(&list, clock, value as i64))?, out))
}

fn try_hull(n: usize, first: &[i32], second: &[i32], out: &mut [i32]) -> Result<i64, Refusal> {
    shape_of_clocks(n)?;
    shape_of_list(n, first)?;
    shape_of_list(n, second)?;
    shape_of_area(n, out)?;
    let (first, second) = (entries_of_list(n, first)?, entries_of_list(n, second)?);
    Ok(filled(sets::fitting(sets::hull(&first, &second))?, out))
}

pub fn contains(n: usize, list: &[i32], point: &[i32]) -> i64 {
    answered(try_contains(n, list, point))
}

pub fn included(n: usize, inner: &[i32], outer: &[i32]) -> i64 {
    answered(try_included(n, inner, outer))
}

pub fn intersect(n: usize, list: &[i32], half: &[i32], out: &mut [i32]) -> i64 {
    answered(try_intersect(n, list, half, out))
}

pub fn delay(n: usize, list: &[i32], out: &mut [i32]) -> i64 {
    answered(try_delay(n, list, out))
}

pub fn reset(n: usize, list: &[i32], clock: usize, value: i32, out: &mut [i32]) -> i64 {
    answered(try_reset(n, list, clock, value, out))
}

pub fn hull(n: usize, first: &[i32], second: &[i32], out: &mut [i32]) -> i64 {
    answered(try_hull(n, first, second, out))
}
