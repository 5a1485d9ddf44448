// The two questions asked of a set, the limits of lists, and the test of a vector against a list.
use super::numbers::{product, weight, LEAST_RAY, MARK, MOST};
use super::{demand, Refusal};

pub fn point_entry(x: i32) -> bool {
    (0..=MOST).contains(&x)
}

pub fn ray_entry(x: i32) -> bool {
    x == MARK || (LEAST_RAY..=MOST).contains(&x)
}

fn vector_fits(vector: &[i32], n: usize) -> bool {
    let clocks = &vector[..n];
    match vector[n] {
        0 => clocks.iter().all(|&x| point_entry(x)),
        MARK => clocks.iter().all(|&x| ray_entry(x)) && clocks.iter().any(|&x| x != MARK),
        _ => false,
    }
}

pub fn clocks(n: usize) -> bool {
    (1..=6).contains(&n)
}

// Whole vectors, at most 32.
pub fn whole(n: usize, list: &[i32]) -> bool {
    list.len().is_multiple_of(n + 1) && list.len() / (n + 1) <= 32
}

pub fn list_fits(n: usize, list: &[i32]) -> bool {
    list.chunks_exact(n + 1).all(|vector| vector_fits(vector, n))
}

pub fn has_point(n: usize, list: &[i32]) -> bool {
    list.chunks_exact(n + 1).any(|vector| vector[n] != MARK)
}

// Whether the largest combination of the vectors that is not above x is x itself; entries that are reached are passed.
pub fn generated<'a>(vectors: impl Iterator<Item = &'a [i32]>, x: &[i32]) -> bool {
    let mut reached = [MARK; 7];
    let reached = &mut reached[..x.len()];
    let mut from = 0;
    for g in vectors {
        let t = weight(g, x);
        if t == MARK {
            continue;
        }
        for (reached, &g) in reached[from..].iter_mut().zip(&g[from..]) {
            *reached = (*reached).max(product(t, g));
        }
        while reached[from] >= x[from] {
            from += 1;
            if from == x.len() {
                return true;
            }
        }
    }
    reached[from..].iter().zip(&x[from..]).all(|(reached, x)| reached >= x)
}

pub fn contains(n: usize, list: &[i32], point: &[i32]) -> Result<bool, Refusal> {
    demand(clocks(n) && whole(n, list) && point.len() == n, Refusal::Shape)?;
    demand(list_fits(n, list) && point.iter().all(|&x| point_entry(x)), Refusal::Entry)?;
    let mut vector = [0; 7];
    vector[..n].copy_from_slice(point);
    Ok(generated(list.chunks_exact(n + 1), &vector[..n + 1]))
}

pub fn included(n: usize, inner: &[i32], outer: &[i32]) -> Result<bool, Refusal> {
    demand(clocks(n) && whole(n, inner) && whole(n, outer), Refusal::Shape)?;
    demand(list_fits(n, inner) && list_fits(n, outer), Refusal::Entry)?;
    let reached = |vector| generated(outer.chunks_exact(n + 1), vector);
    Ok(!has_point(n, inner) || inner.chunks_exact(n + 1).all(reached))
}
