// The calls of one side, what a row gives them, and what it lends them.
use crate::callgrind::counted;
use crate::twin::{self, TEXT};
use std::ffi::CStr;
use std::hint::black_box;

// Both sides are called over pointers, so that neither is made for one row.
pub struct Side {
    pub name: &'static str,
    contains: fn(usize, &[i32], &[i32]) -> i64,
    included: fn(usize, &[i32], &[i32]) -> i64,
    intersect: fn(usize, &[i32], &[i32], &mut [i32]) -> i64,
    delay: fn(usize, &[i32], &mut [i32]) -> i64,
    reset: fn(usize, &[i32], usize, i32, &mut [i32]) -> i64,
    hull: fn(usize, &[i32], &[i32], &mut [i32]) -> i64,
    rewrite: fn(&[u8], &mut [u8]) -> i64,
    walk: fn(&[u8], &mut [i32], &mut [u64; 3]) -> i64,
    print: fn(&[u8], &mut [i32], &mut [u8; TEXT]) -> i64,
}

macro_rules! side {
    ($name:literal, $calls:path) => {{
        use $calls as calls;
        Side {
            name: $name,
            contains: calls::contains,
            included: calls::included,
            intersect: calls::intersect,
            delay: calls::delay,
            reset: calls::reset,
            hull: calls::hull,
            rewrite: calls::rewrite,
            walk: calls::walk,
            print: calls::print,
        }
    }};
}

pub const SIDES: &[Side] = &[
    #[cfg(feature = "ours")]
    side!("ours", crate::ours),
    side!("twin", twin),
];

pub enum Input {
    Contains { list: Vec<i32>, point: Vec<i32> },
    Included { inner: Vec<i32>, outer: Vec<i32> },
    Intersect { list: Vec<i32>, half: Vec<i32> },
    Delay { list: Vec<i32> },
    Reset { list: Vec<i32>, clock: usize, value: i32 },
    Hull { first: Vec<i32>, second: Vec<i32> },
    Rewrite { bytes: Vec<u8> },
    Walk { bytes: Vec<u8> },
    Print { bytes: Vec<u8> },
}

// The areas that a call may write to.
#[derive(PartialEq)]
pub struct Lent {
    pub words: Vec<i32>,
    pub bytes: Vec<u8>,
    pub text: [u8; TEXT],
    pub counts: [u64; 3],
}

impl Lent {
    // Room for every call: 64 records, the longest model; no word of it is 0 before.
    pub fn new(n: usize) -> Lent {
        Lent { words: vec![7; 64 * (4 + 32 * (n + 1)) + 5], bytes: vec![7; 33_670], text: [7; TEXT], counts: [7; 3] }
    }
}

impl Side {
    // The answer of a call, its instructions counted into a dump of this name.
    pub fn call(&self, n: usize, input: &Input, lent: &mut Lent, name: &CStr) -> i64 {
        let (side, n) = (black_box(self), black_box(n));
        let Lent { words, bytes: out, text, counts } = lent;
        match black_box(input) {
            Input::Contains { list, point } => counted(name, || (side.contains)(n, list, point)),
            Input::Included { inner, outer } => counted(name, || (side.included)(n, inner, outer)),
            Input::Intersect { list, half } => counted(name, || (side.intersect)(n, list, half, words)),
            Input::Delay { list } => counted(name, || (side.delay)(n, list, words)),
            Input::Reset { list, clock, value } => counted(name, || (side.reset)(n, list, *clock, *value, words)),
            Input::Hull { first, second } => counted(name, || (side.hull)(n, first, second, words)),
            Input::Rewrite { bytes } => counted(name, || (side.rewrite)(bytes, out)),
            Input::Walk { bytes } => counted(name, || (side.walk)(bytes, words, counts)),
            Input::Print { bytes } => counted(name, || (side.print)(bytes, words, text)),
        }
    }
}
