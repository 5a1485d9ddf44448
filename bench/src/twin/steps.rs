// The walk's steps on lists: bounds as half-spaces, entering a location, a candidate, the target test.
use super::bounds::{Bound, Bounds, Kind};
use super::making::{delay, intersect, reset};
use super::model::Edge;
use super::numbers::MARK;
use super::Refusal;

pub struct List {
    words: [i32; 224],
    long: usize,
}

// The half-space of a bound: which place gets 0, and which gets k.
fn half(bound: &Bound, n: usize) -> [i32; 14] {
    let (x, y) = (bound.x as usize, bound.y as usize);
    let (b, c, d) = (n, n + 1, 2 * n + 1);
    let (nought, constant) = match bound.kind {
        Kind::AtMost => (x, d),
        Kind::AtLeast => (c + x, b),
        Kind::DifferAtMost => (x, c + y),
        Kind::DifferAtLeast => (c + x, y),
        Kind::HalfSpace => return bound.half,
    };
    let mut half = [MARK; 14];
    half[nought] = 0;
    half[constant] = bound.k;
    half
}

impl List {
    fn of(words: &[i32]) -> List {
        let mut list = List { words: [0; 224], long: words.len() };
        list.words[..words.len()].copy_from_slice(words);
        list
    }

    pub fn words(&self) -> &[i32] {
        &self.words[..self.long]
    }

    // The list becomes what a call makes of it.
    fn become_made(&mut self, n: usize, call: impl Fn(&[i32], &mut [i32]) -> Result<usize, Refusal>) -> Result<(), Refusal> {
        let mut next = [0; 224];
        let long = call(self.words(), &mut next)? * (n + 1);
        self.words[..long].copy_from_slice(&next[..long]);
        self.long = long;
        Ok(())
    }

    fn cut(&mut self, n: usize, bounds: &Bounds) -> Result<(), Refusal> {
        for bound in bounds.items() {
            let half = half(bound, n);
            self.become_made(n, |list, out| intersect(n, list, &half[..2 * (n + 1)], out))?;
        }
        Ok(())
    }

    fn reset(&mut self, n: usize, resets: u32) -> Result<(), Refusal> {
        for clock in (0..n).filter(|clock| resets >> clock & 1 == 1) {
            self.become_made(n, |list, out| reset(n, list, clock, 0, out))?;
        }
        Ok(())
    }

    fn enter(&mut self, n: usize, invariant: &Bounds) -> Result<(), Refusal> {
        self.cut(n, invariant)?;
        self.become_made(n, |list, out| delay(n, list, out))?;
        self.cut(n, invariant)
    }
}

pub fn enter(n: usize, invariant: &Bounds, words: &[i32]) -> Result<List, Refusal> {
    let mut list = List::of(words);
    list.enter(n, invariant)?;
    Ok(list)
}

pub fn candidate(n: usize, edge: &Edge, invariant: &Bounds, words: &[i32]) -> Result<List, Refusal> {
    let mut list = List::of(words);
    list.cut(n, &edge.guard)?;
    list.reset(n, edge.resets)?;
    list.enter(n, invariant)?;
    Ok(list)
}

pub fn meets(n: usize, goal: &Bounds, words: &[i32]) -> Result<bool, Refusal> {
    let mut list = List::of(words);
    list.cut(n, goal)?;
    Ok(!list.words().is_empty())
}
