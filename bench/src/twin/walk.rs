// The walk over lent memory: candidates, layers, the verdict.
use super::model::{Edge, Model};
use super::{area, demand, steps, Refusal};

#[derive(Clone, Copy)]
pub enum Verdict {
    Reached { edges: usize, kept: usize, tried: usize },
    Never { kept: usize, tried: usize },
    Open { depth: usize, kept: usize, tried: usize },
}

struct Walk<'a> {
    model: &'a Model,
    n: usize,
    area: &'a mut [i32],
    room: usize,
    kept: usize,
    tried: usize,
}

impl Walk<'_> {
    // Keeps a state, if there is room, and tests it: true if it meets the target.
    fn keep(&mut self, location: u32, parent: i32, edge: i32, list: &[i32]) -> Result<bool, Refusal> {
        demand(self.kept < self.room, Refusal::Room)?;
        area::keep(self.area, self.n, self.kept, [location as i32, parent, edge], list);
        self.kept += 1;
        if location == self.model.target {
            steps::meets(self.n, &self.model.list, list)
        } else {
            Ok(false)
        }
    }

    // Forms the candidate over edge e from state i; drops it or keeps it.
    fn form(&mut self, i: usize, e: usize, edge: &Edge) -> Result<bool, Refusal> {
        self.tried += 1;
        let q = edge.destination;
        let invariant = &self.model.invariants[q as usize];
        let made = steps::candidate(self.n, edge, invariant, area::list(self.area, self.n, i))?;
        let list = made.words();
        if list.is_empty() || area::covered(self.area, self.n, self.kept, q, list) {
            return Ok(false);
        }
        self.keep(q, i as i32, e as i32, list)
    }

    fn expand(&mut self, i: usize) -> Result<bool, Refusal> {
        let here = area::location(self.area, self.n, i);
        for (e, edge) in self.model.steps().iter().enumerate() {
            if edge.source == here && self.form(i, e, edge)? {
                return Ok(true);
            }
        }
        Ok(false)
    }

    // Expands each state of a layer: true as soon as the target is met.
    fn layer(&mut self, begin: usize, end: usize) -> Result<bool, Refusal> {
        for i in begin..end {
            if self.expand(i)? {
                return Ok(true);
            }
        }
        Ok(false)
    }

    fn reached(&self, edges: usize) -> Verdict {
        Verdict::Reached { edges, kept: self.kept, tried: self.tried }
    }

    fn layers(&mut self) -> Result<Verdict, Refusal> {
        let depth = self.model.depth as usize;
        let mut begin = 0;
        for d in 0..depth {
            let end = self.kept;
            if self.layer(begin, end)? {
                return Ok(self.reached(d + 1));
            }
            if self.kept == end {
                return Ok(Verdict::Never { kept: self.kept, tried: self.tried });
            }
            begin = end;
        }
        Ok(Verdict::Open { depth, kept: self.kept, tried: self.tried })
    }

    fn begin(&mut self) -> Result<Verdict, Refusal> {
        let initial = self.model.initial;
        let invariant = &self.model.invariants[initial as usize];
        let made = steps::enter(self.n, invariant, &[0; 7][..self.n + 1])?;
        if made.words().is_empty() {
            return Ok(Verdict::Never { kept: 0, tried: 0 });
        }
        if self.keep(initial, -1, -1, made.words())? {
            return Ok(self.reached(0));
        }
        self.layers()
    }
}

// SHAPE for an area under one record; a refusal of the walk leaves every word 0.
pub fn walk_model(model: &Model, area: &mut [i32]) -> Result<Verdict, Refusal> {
    let n = model.clocks as usize;
    let room = area::room(area, n);
    demand(room > 0, Refusal::Shape)?;
    let verdict = Walk { model, n, area, room, kept: 0, tried: 0 }.begin();
    if verdict.is_err() {
        area.fill(0);
    }
    verdict
}

pub fn walk(bytes: &[u8], area: &mut [i32]) -> Result<Verdict, Refusal> {
    let mut model = Model::NONE;
    model.read(bytes)?;
    walk_model(&model, area)
}
