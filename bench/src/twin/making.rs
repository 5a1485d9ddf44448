// The four calls that make a set.
use super::numbers::{product, side, MARK};
use super::sets::{clocks, has_point, list_fits, point_entry, ray_entry, whole};
use super::work::Work;
use super::{demand, Refusal};

fn shape(n: usize, list: &[i32], out: &[i32]) -> bool {
    clocks(n) && whole(n, list) && out.len() >= 32 * (n + 1)
}

// Satisfying vectors stay, and each gives one more with every violating one.
fn cut(work: &mut Work, list: &[i32], half: &[i32], n: usize) {
    let (ab, cd) = half.split_at(n + 1);
    let (mut ls, mut rs) = ([0; 32], [0; 32]);
    for (i, vector) in list.chunks_exact(n + 1).enumerate() {
        ls[i] = side(ab, vector);
        rs[i] = side(cd, vector);
    }
    for (i, g) in list.chunks_exact(n + 1).enumerate() {
        if rs[i] < ls[i] {
            continue;
        }
        work.push(g, n);
        for (j, h) in list.chunks_exact(n + 1).enumerate() {
            if rs[j] < ls[j] {
                push_mixed(work, g, ls[j], h, rs[i], n);
            }
        }
    }
}

// The larger of two weighted vectors.
fn push_mixed(work: &mut Work, g: &[i32], l: i32, h: &[i32], r: i32, n: usize) {
    let mut row = [0; 7];
    for ((place, &g), &h) in row.iter_mut().zip(g).zip(h) {
        *place = product(l, g).max(product(r, h));
    }
    work.push(&row[..n + 1], n);
}

// Each vector of the list, with one of its words replaced.
fn push_changed(work: &mut Work, list: &[i32], n: usize, at: usize, word: impl Fn(&[i32]) -> i32) {
    for vector in list.chunks_exact(n + 1) {
        let mut row = [0; 7];
        row[..n + 1].copy_from_slice(vector);
        row[at] = word(vector);
        work.push(&row[..n + 1], n);
    }
}

fn push_all(work: &mut Work, list: &[i32], n: usize) {
    for vector in list.chunks_exact(n + 1) {
        work.push(vector, n);
    }
}

pub fn intersect(n: usize, list: &[i32], half: &[i32], out: &mut [i32]) -> Result<usize, Refusal> {
    demand(shape(n, list, out) && half.len() == 2 * (n + 1), Refusal::Shape)?;
    demand(list_fits(n, list) && half.iter().all(|&x| ray_entry(x)), Refusal::Entry)?;
    let mut work = Work::new();
    cut(&mut work, list, half, n);
    work.finish(n, out)
}

pub fn delay(n: usize, list: &[i32], out: &mut [i32]) -> Result<usize, Refusal> {
    demand(shape(n, list, out), Refusal::Shape)?;
    demand(list_fits(n, list), Refusal::Entry)?;
    let mut work = Work::new();
    push_all(&mut work, list, n);
    push_changed(&mut work, list, n, n, |_| MARK);
    work.finish(n, out)
}

pub fn reset(n: usize, list: &[i32], clock: usize, value: i32, out: &mut [i32]) -> Result<usize, Refusal> {
    demand(shape(n, list, out), Refusal::Shape)?;
    demand(list_fits(n, list), Refusal::Entry)?;
    demand(clock < n && point_entry(value), Refusal::Arg)?;
    let mut work = Work::new();
    push_changed(&mut work, list, n, clock, |vector| product(value, vector[n]));
    work.finish(n, out)
}

pub fn hull(n: usize, first: &[i32], second: &[i32], out: &mut [i32]) -> Result<usize, Refusal> {
    demand(shape(n, first, out) && whole(n, second), Refusal::Shape)?;
    demand(list_fits(n, first) && list_fits(n, second), Refusal::Entry)?;
    let mut work = Work::new();
    for list in [first, second] {
        if has_point(n, list) {
            push_all(&mut work, list, n);
        }
    }
    work.finish(n, out)
}
