// A number is an integer or −∞; −∞ is None, which stands below every Some.
pub type Number = Option<i64>;

// The word that stands for −∞.
pub const MARK: i32 = i32::MIN;

// The largest entry of a point, and of a ray or half-space in either direction.
pub const LIMIT: i64 = 1_000_000;

// The product: ordinary addition, and −∞ absorbs.
pub fn times(one: Number, other: Number) -> Number {
    Some(one? + other?)
}

pub fn number(word: i32) -> Number {
    (word != MARK).then_some(word as i64)
}

pub fn word(number: Number) -> i32 {
    number.map_or(MARK, |value| i32::try_from(value).expect("a word"))
}
