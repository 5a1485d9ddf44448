// The walk: its verdict, and every word of the state area after it.
use super::model::{read, Bound, Edge, Model};
use super::numbers::word;
use super::sets::{self, List};
use super::{Refusal, ROOM, SHAPE};

#[derive(Clone, Debug, PartialEq)]
pub struct State {
    pub location: usize,
    pub parent: i32,
    pub edge: i32,
    pub list: List,
}

#[derive(Clone, Copy, Debug, PartialEq)]
pub enum Verdict {
    Never,
    Reached(usize),
    Open(usize),
}

#[derive(Clone, Debug)]
pub struct Walked {
    pub verdict: Verdict,
    pub kept: Vec<State>,
    pub tried: usize,
}

struct Walk<'a> {
    model: &'a Model,
    room: usize,
    kept: Vec<State>,
    tried: usize,
}

// Bounds go in list order, canonical and in limits after each.
pub fn cut(model: &Model, list: List, bounds: &[Bound]) -> Result<List, Refusal> {
    bounds.iter().try_fold(list, |list, bound| sets::fitting(sets::intersect(&list, &bound.half(model.clocks))))
}

fn enter(model: &Model, list: List, location: usize) -> Result<List, Refusal> {
    let invariant = &model.invariants[location];
    let held = cut(model, list, invariant)?;
    cut(model, sets::fitting(sets::delay(&held))?, invariant)
}

fn step(model: &Model, list: &List, edge: &Edge) -> Result<List, Refusal> {
    let mut list = cut(model, list.clone(), &edge.guard)?;
    for clock in (0..model.clocks).filter(|clock| edge.resets >> clock & 1 == 1) {
        list = sets::fitting(sets::reset(&list, clock, 0))?;
    }
    enter(model, list, edge.destination)
}

impl Walk<'_> {
    fn known(&self, location: usize, list: &List) -> bool {
        self.kept.iter().any(|state| state.location == location && sets::included(list, &state.list))
    }

    // Keeps a state and tests it: true if the target's bounds leave something of it.
    fn keep(&mut self, state: State) -> Result<bool, Refusal> {
        if self.kept.len() == self.room {
            return Err(ROOM);
        }
        let tested = (state.location == self.model.target).then(|| state.list.clone());
        self.kept.push(state);
        tested.map_or(Ok(false), |list| Ok(!cut(self.model, list, &self.model.goal)?.is_empty()))
    }

    // One candidate: true if it is kept and meets the target.
    fn candidate(&mut self, parent: usize, number: usize) -> Result<bool, Refusal> {
        let edge = &self.model.edges[number];
        self.tried += 1;
        let list = step(self.model, &self.kept[parent].list, edge)?;
        if list.is_empty() || self.known(edge.destination, &list) {
            return Ok(false);
        }
        self.keep(State { location: edge.destination, parent: parent as i32, edge: number as i32, list })
    }

    // The next layer from the states of one layer: true as soon as the target is met.
    fn layer(&mut self, from: usize, to: usize) -> Result<bool, Refusal> {
        for parent in from..to {
            for number in 0..self.model.edges.len() {
                let leaves = self.model.edges[number].source == self.kept[parent].location;
                if leaves && self.candidate(parent, number)? {
                    return Ok(true);
                }
            }
        }
        Ok(false)
    }

    fn verdict(&mut self) -> Result<Verdict, Refusal> {
        let start = vec![vec![Some(0); self.model.clocks + 1]];
        let list = enter(self.model, start, self.model.initial)?;
        if list.is_empty() {
            return Ok(Verdict::Never);
        }
        if self.keep(State { location: self.model.initial, parent: -1, edge: -1, list })? {
            return Ok(Verdict::Reached(0));
        }
        let mut from = 0;
        for layer in 0..self.model.depth {
            let to = self.kept.len();
            if self.layer(from, to)? {
                return Ok(Verdict::Reached(layer + 1));
            }
            if self.kept.len() == to {
                return Ok(Verdict::Never);
            }
            from = to;
        }
        Ok(Verdict::Open(self.model.depth))
    }
}

// The walk of a model in a room.
pub fn walked(model: &Model, room: usize) -> Result<Walked, Refusal> {
    let mut walk = Walk { model, room, kept: Vec::new(), tried: 0 };
    let verdict = walk.verdict()?;
    Ok(Walked { verdict, kept: walk.kept, tried: walk.tried })
}

fn record(clocks: usize) -> usize {
    4 + 32 * (clocks + 1)
}

fn words(clocks: usize, state: &State) -> Vec<i32> {
    let head = [state.location as i32, state.parent, state.edge, state.list.len() as i32];
    let list = state.list.iter().flatten().map(|&entry| word(entry));
    let mut words: Vec<i32> = head.into_iter().chain(list).collect();
    words.resize(record(clocks), 0);
    words
}

// Walks, and leaves the area as the rule says.
fn walked_in(model: &Model, area: &mut [i32]) -> Result<Walked, Refusal> {
    let room = (area.len() / record(model.clocks)).min(64);
    if room == 0 {
        return Err(SHAPE);
    }
    let walked = walked(model, room).inspect_err(|_| area.fill(0))?;
    let kept: Vec<i32> = walked.kept.iter().flat_map(|state| words(model.clocks, state)).collect();
    area[..kept.len()].copy_from_slice(&kept);
    Ok(walked)
}

// The whole model is read before the area is looked at.
pub fn walked_over(bytes: &[u8], area: &mut [i32]) -> Result<(Model, Walked), Refusal> {
    let model = read(bytes)?;
    let walked = walked_in(&model, area)?;
    Ok((model, walked))
}

// 0 NEVER, 1 REACHED, 2 OPEN, or the refusal's number below 0; counts are edges or depth, kept, tried, or as before.
pub fn walk(bytes: &[u8], area: &mut [i32], counts: &mut [u64; 3]) -> i64 {
    let walked = match walked_over(bytes, area) {
        Err(refusal) => return -refusal,
        Ok((_, walked)) => walked,
    };
    let (answer, first) = match walked.verdict {
        Verdict::Never => (0, 0),
        Verdict::Reached(edges) => (1, edges),
        Verdict::Open(depth) => (2, depth),
    };
    *counts = [first, walked.kept.len(), walked.tried].map(|figure| figure as u64);
    answer
}

// The states from state 0 to the one kept last, by parents.
pub fn path(kept: &[State]) -> Vec<&State> {
    let mut states: Vec<&State> = kept.last().into_iter().collect();
    while let Some(parent) = states.last().and_then(|state| kept.get(state.parent as usize)) {
        states.push(parent);
    }
    states.reverse();
    states
}
