// The reference of the rule: exact lists, counts, path, every word.
pub mod calls;
pub mod model;
pub mod numbers;
pub mod sets;
pub mod text;
pub mod walk;

// A refusal is its number, 1 to 8.
pub type Refusal = i64;
pub const SHAPE: Refusal = 1;
pub const ENTRY: Refusal = 2;
pub const ARG: Refusal = 3;
pub const RANGE: Refusal = 4;
pub const GENS: Refusal = 5;
pub const ROOM: Refusal = 6;
pub const BYTES: Refusal = 7;
pub const MODEL: Refusal = 8;
