// Vectors in working memory, each shifted as a canonical list wants it; cleaned, looked at, sorted, written once.
use super::numbers::{product, LEAST_RAY, MARK, MOST};
use super::sets::{generated, has_point};
use super::{demand, sorting, Refusal};

pub struct Work {
    words: [i32; 1904],
    long: usize,
}

// The shift that brings a point's last entry, or a ray's largest, to 0.
fn shift(vector: &[i32], n: usize) -> i32 {
    if vector[n] != MARK {
        return -vector[n];
    }
    match vector.iter().copied().fold(MARK, i32::max) {
        MARK => 0,
        most => -most,
    }
}

fn row_fits(vector: &[i32], n: usize) -> bool {
    let clocks = &vector[..n];
    if vector[n] != MARK {
        clocks.iter().all(|&x| x <= MOST)
    } else {
        clocks.iter().all(|&x| x == MARK || x >= LEAST_RAY)
    }
}

fn alive_vectors<'a>(words: &'a [i32], alive: &'a [bool], n: usize) -> impl Iterator<Item = &'a [i32]> {
    words.chunks_exact(n + 1).zip(alive).filter(|(_, on)| **on).map(|(vector, _)| vector)
}

// Each vector in turn is dropped if the others that are left generate it.
fn clean(alive: &mut [bool], words: &[i32], n: usize) {
    for (i, vector) in words.chunks_exact(n + 1).enumerate() {
        alive[i] = false;
        alive[i] = !generated(alive_vectors(words, alive, n), vector);
    }
}

impl Work {
    pub fn new() -> Work {
        Work { words: [0; 1904], long: 0 }
    }

    pub fn push(&mut self, vector: &[i32], n: usize) {
        let by = shift(vector, n);
        let end = self.long + vector.len();
        for (place, &x) in self.words[self.long..end].iter_mut().zip(vector) {
            *place = product(by, x);
        }
        self.long = end;
    }

    // The canonical list as the result; without a point it is empty.
    pub fn finish(&self, n: usize, out: &mut [i32]) -> Result<usize, Refusal> {
        let words = &self.words[..self.long];
        if !has_point(n, words) {
            return Ok(0);
        }
        let mut alive = [true; 272];
        let alive = &mut alive[..words.len() / (n + 1)];
        clean(alive, words, n);
        demand(alive_vectors(words, alive, n).all(|vector| row_fits(vector, n)), Refusal::Range)?;
        let mut result = [0; 224];
        let count = sorting::emit(&mut result, words, alive, n).ok_or(Refusal::Gens)?;
        let long = count * (n + 1);
        out[..long].copy_from_slice(&result[..long]);
        Ok(count)
    }
}
