// The checker's method in ordinary Rust: the calls, each with the checks of its input.
mod area;
mod bounds;
mod codec;
mod making;
mod model;
mod numbers;
mod sets;
mod sorting;
mod steps;
mod text;
mod walk;
mod work;

use model::Model;
pub use text::TEXT;
use walk::Verdict;

// Why a call refuses, by its number.
#[derive(Clone, Copy)]
pub enum Refusal {
    Shape = 1,
    Entry,
    Arg,
    Range,
    Gens,
    Room,
    Bytes,
    Model,
}

fn demand(holds: bool, refusal: Refusal) -> Result<(), Refusal> {
    if holds {
        Ok(())
    } else {
        Err(refusal)
    }
}

fn told(answer: Result<bool, Refusal>) -> i64 {
    answer.map_or_else(|refusal| -(refusal as i64), i64::from)
}

fn made(answer: Result<usize, Refusal>) -> i64 {
    answer.map_or_else(|refusal| -(refusal as i64), |count| count as i64)
}

pub fn contains(n: usize, list: &[i32], point: &[i32]) -> i64 {
    told(sets::contains(n, list, point))
}

pub fn included(n: usize, inner: &[i32], outer: &[i32]) -> i64 {
    told(sets::included(n, inner, outer))
}

pub fn intersect(n: usize, list: &[i32], half: &[i32], out: &mut [i32]) -> i64 {
    made(making::intersect(n, list, half, out))
}

pub fn delay(n: usize, list: &[i32], out: &mut [i32]) -> i64 {
    made(making::delay(n, list, out))
}

pub fn reset(n: usize, list: &[i32], clock: usize, value: i32, out: &mut [i32]) -> i64 {
    made(making::reset(n, list, clock, value, out))
}

pub fn hull(n: usize, first: &[i32], second: &[i32], out: &mut [i32]) -> i64 {
    made(making::hull(n, first, second, out))
}

// Reads a model and writes it back.
pub fn rewrite(bytes: &[u8], out: &mut [u8]) -> i64 {
    let mut model = Model::NONE;
    made(model.read(bytes).and_then(|_| model.write(out)))
}

// 0 NEVER, 1 REACHED, 2 OPEN; the counts are edges or depth, kept, tried; a refusal leaves them.
pub fn walk(bytes: &[u8], area: &mut [i32], counts: &mut [u64; 3]) -> i64 {
    let (answer, figures) = match walk::walk(bytes, area) {
        Ok(Verdict::Never { kept, tried }) => (0, [0, kept, tried]),
        Ok(Verdict::Reached { edges, kept, tried }) => (1, [edges, kept, tried]),
        Ok(Verdict::Open { depth, kept, tried }) => (2, [depth, kept, tried]),
        Err(refusal) => return -(refusal as i64),
    };
    *counts = figures.map(|figure| figure as u64);
    answer
}

pub fn print(bytes: &[u8], area: &mut [i32], text: &mut [u8; TEXT]) -> i64 {
    text::print(bytes, area, text) as i64
}
