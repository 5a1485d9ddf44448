// The model's bytes, read and written.
use super::numbers::{Number, LIMIT};
use super::{Refusal, BYTES, MODEL, SHAPE};

#[derive(Clone, Debug, PartialEq)]
pub enum Bound {
    AtMost { x: usize, k: i64 },
    AtLeast { x: usize, k: i64 },
    ApartAtMost { x: usize, y: usize, k: i64 },
    ApartAtLeast { x: usize, y: usize, k: i64 },
    Half(Vec<Number>),
}

#[derive(Clone, Debug, PartialEq)]
pub struct Edge {
    pub source: usize,
    pub destination: usize,
    pub guard: Vec<Bound>,
    pub resets: u32,
}

#[derive(Clone, Debug, PartialEq)]
pub struct Model {
    pub clocks: usize,
    pub initial: usize,
    pub invariants: Vec<Vec<Bound>>,
    pub edges: Vec<Edge>,
    pub target: usize,
    pub goal: Vec<Bound>,
    pub depth: usize,
}

impl Bound {
    // The half-space of a bound, by the fixed table.
    pub fn half(&self, clocks: usize) -> Vec<Number> {
        let (b, c, d) = (clocks, clocks + 1, 2 * clocks + 1);
        let table = |rows: [(usize, i64); 2]| {
            let mut half = vec![None; 2 * clocks + 2];
            rows.into_iter().for_each(|(place, value)| half[place] = Some(value));
            half
        };
        match *self {
            Bound::AtMost { x, k } => table([(x, 0), (d, k)]),
            Bound::AtLeast { x, k } => table([(b, k), (c + x, 0)]),
            Bound::ApartAtMost { x, y, k } => table([(x, 0), (c + y, k)]),
            Bound::ApartAtLeast { x, y, k } => table([(y, k), (c + x, 0)]),
            Bound::Half(ref entries) => entries.clone(),
        }
    }
}

struct Reader<'a> {
    rest: &'a [u8],
}

impl Reader<'_> {
    fn byte(&mut self) -> Result<u8, Refusal> {
        let (first, rest) = self.rest.split_first().ok_or(BYTES)?;
        self.rest = rest;
        Ok(*first)
    }

    // Lowest group first, at most three, and the last of several is not 0.
    fn number(&mut self) -> Result<i64, Refusal> {
        let mut value = 0;
        for group in 0..3 {
            let byte = self.byte()?;
            value += i64::from(byte % 128) << (7 * group);
            if byte < 128 {
                return if group > 0 && byte == 0 { Err(BYTES) } else { Ok(value) };
            }
        }
        Err(BYTES)
    }

    fn within(&mut self, low: i64, high: i64) -> Result<i64, Refusal> {
        let value = self.number()?;
        if (low..=high).contains(&value) {
            Ok(value)
        } else {
            Err(MODEL)
        }
    }

    fn place(&mut self, count: usize) -> Result<usize, Refusal> {
        Ok(self.within(0, count as i64 - 1)? as usize)
    }

    fn signed(&mut self) -> Result<i64, Refusal> {
        Ok(unfolded(self.within(0, 2 * LIMIT)?))
    }

    fn entry(&mut self) -> Result<Number, Refusal> {
        let value = self.within(0, 2 * LIMIT + 1)?;
        Ok((value > 0).then(|| unfolded(value - 1)))
    }

    fn pair(&mut self, n: usize) -> Result<(usize, usize, i64), Refusal> {
        let x = self.place(n)?;
        let y = self.place(n)?;
        if x == y {
            return Err(MODEL);
        }
        Ok((x, y, self.signed()?))
    }

    fn bound(&mut self, n: usize) -> Result<Bound, Refusal> {
        match self.within(0, 4)? {
            0 => Ok(Bound::AtMost { x: self.place(n)?, k: self.within(0, LIMIT)? }),
            1 => Ok(Bound::AtLeast { x: self.place(n)?, k: self.within(0, LIMIT)? }),
            2 => self.pair(n).map(|(x, y, k)| Bound::ApartAtMost { x, y, k }),
            3 => self.pair(n).map(|(x, y, k)| Bound::ApartAtLeast { x, y, k }),
            _ => Ok(Bound::Half((0..2 * n + 2).map(|_| self.entry()).collect::<Result<_, _>>()?)),
        }
    }

    fn list(&mut self, n: usize) -> Result<Vec<Bound>, Refusal> {
        let count = self.within(0, 8)?;
        (0..count).map(|_| self.bound(n)).collect()
    }

    fn edge(&mut self, n: usize, locations: usize) -> Result<Edge, Refusal> {
        let source = self.place(locations)?;
        let destination = self.place(locations)?;
        let guard = self.list(n)?;
        let resets = self.within(0, (1 << n) - 1)? as u32;
        Ok(Edge { source, destination, guard, resets })
    }

    fn model(&mut self) -> Result<Model, Refusal> {
        let clocks = self.within(1, 6)? as usize;
        let locations = self.within(1, 32)? as usize;
        let count = self.within(0, 64)?;
        let initial = self.place(locations)?;
        let invariants = (0..locations).map(|_| self.list(clocks)).collect::<Result<_, _>>()?;
        let edges = (0..count).map(|_| self.edge(clocks, locations)).collect::<Result<_, _>>()?;
        let target = self.place(locations)?;
        let goal = self.list(clocks)?;
        let depth = self.within(0, 200)? as usize;
        Ok(Model { clocks, initial, invariants, edges, target, goal, depth })
    }
}

pub fn read(bytes: &[u8]) -> Result<Model, Refusal> {
    let mut reader = Reader { rest: bytes };
    let model = reader.model()?;
    if reader.rest.is_empty() {
        Ok(model)
    } else {
        Err(BYTES)
    }
}

fn unfolded(value: i64) -> i64 {
    if value % 2 == 0 {
        value / 2
    } else {
        -(value + 1) / 2
    }
}

fn folded(k: i64) -> i64 {
    if k >= 0 {
        2 * k
    } else {
        -2 * k - 1
    }
}

fn numbers_of_bound(bound: &Bound) -> Vec<i64> {
    match *bound {
        Bound::AtMost { x, k } => vec![0, x as i64, k],
        Bound::AtLeast { x, k } => vec![1, x as i64, k],
        Bound::ApartAtMost { x, y, k } => vec![2, x as i64, y as i64, folded(k)],
        Bound::ApartAtLeast { x, y, k } => vec![3, x as i64, y as i64, folded(k)],
        Bound::Half(ref entries) => {
            let entries = entries.iter().map(|entry| entry.map_or(0, |value| folded(value) + 1));
            [4].into_iter().chain(entries).collect()
        }
    }
}

fn numbers_of_list(list: &[Bound]) -> Vec<i64> {
    [list.len() as i64].into_iter().chain(list.iter().flat_map(numbers_of_bound)).collect()
}

fn numbers_of_edge(edge: &Edge) -> Vec<i64> {
    let head = vec![edge.source as i64, edge.destination as i64];
    [head, numbers_of_list(&edge.guard), vec![edge.resets as i64]].concat()
}

// The run of numbers that a model is.
pub fn numbers(model: &Model) -> Vec<i64> {
    let head = [model.clocks, model.invariants.len(), model.edges.len(), model.initial].map(|value| value as i64);
    let mut run = head.to_vec();
    run.extend(model.invariants.iter().flat_map(|list| numbers_of_list(list)));
    run.extend(model.edges.iter().flat_map(numbers_of_edge));
    run.push(model.target as i64);
    run.extend(numbers_of_list(&model.goal));
    run.push(model.depth as i64);
    run
}

// The shortest groups of a number.
pub fn groups(value: i64) -> Vec<u8> {
    let low = (value % 128) as u8;
    if value < 128 {
        vec![low]
    } else {
        [vec![low + 128], groups(value / 128)].concat()
    }
}

pub fn written(model: &Model) -> Vec<u8> {
    numbers(model).into_iter().flat_map(groups).collect()
}

fn try_rewrite(bytes: &[u8], out: &mut [u8]) -> Result<i64, Refusal> {
    let text = written(&read(bytes)?);
    out.get_mut(..text.len()).ok_or(SHAPE)?.copy_from_slice(&text);
    Ok(text.len() as i64)
}

// Reads and writes back: the bytes written, or the refusal's number below 0.
pub fn rewrite(bytes: &[u8], out: &mut [u8]) -> i64 {
    try_rewrite(bytes, out).unwrap_or_else(|refusal| -refusal)
}
