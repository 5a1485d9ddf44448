// Scionwheel's nine calls for Rust, on x86-64 Linux. Take this file in as a module, and link libexports.a, which
// `rt lib` in crates/exports writes (bindings/run shows how): #[path = "bindings/scionwheel.rs"] mod scionwheel;
// docs/RULES.md says what lists, half-spaces and models are, bindings/example.rs shows each kind of call.
//
// What the library wants of memory. It checks every number and word itself, but it cannot check memory:
// - A part of memory is a pointer and then a length. The length counts elements, not bytes.
// - `counts` and `text` have a fixed size. They are one pointer and have no length.
// - No pointer is null, and each is aligned for its element, with length 0 too. All of a part is readable and was
//   written before; where the pointer is `*mut` all of it is writable.
// - A part that is written overlaps no other part of the same call.
// Slices keep all of this, so the functions below are safe. Calls share no state, keep no pointer and allocate nothing.
// They may run in several threads at once, each on memory of its own.
//
// Do not declare these calls with `&[i32]`. Rust gives a slice in an `extern "C"` signature no fixed form (it warns:
// improper_ctypes). Today it passes one value of two words. Where both find registers that is a pointer and then a
// length. In intersect, reset and hull the words of `out` do not: both go to the stack, the library takes some other
// word for the pointer, and it crashes, or answers and has written to memory that was not lent.
//
// Each answer is one number. Below 0 it is a refusal: minus its number. From 0 on it is 1 for yes and 0 for no, or a
// count of what stands at the start of `out`, or NEVER, REACHED or OPEN, or the length of the text. What stands behind
// a result or a text is as it was. A refusal leaves all lent memory as it was, `counts` too. But a walk that is refused
// RANGE, GENS or ROOM leaves every word of the state area 0, in walk and in print.
//
// Stack that a call takes, measured on the library as compiled by the kit of `rt version`, rounded up, not proved:
// contains and included 512 bytes; intersect, delay, reset and hull 10,000; walk and print 26,000; rewrite 270,000.
//
// A call whose signature changes gets a new name, and the old name goes. So a program that was written for the old one
// fails to link, and never passes words that mean something else.

// The word for minus infinity: an entry that is not there, and the last word of a ray.
pub const MARK: i32 = i32::MIN;

// Words of a state area that has room for every walk: 64 records of 6 clocks.
pub const AREA: usize = 14_592;

// Bytes of the longest model, and of the text area. No text is longer than 397 bytes.
pub const LONGEST: usize = 33_664;
pub const TEXT: usize = 512;

// What `walk` answers.
pub const NEVER: i64 = 0;
pub const REACHED: i64 = 1;
pub const OPEN: i64 = 2;

// The numbers of refusals; a call answers minus one of them.
pub const SHAPE: i64 = 1; // clocks not 1 to 6, a length that does not fit, an area that is too short
pub const ENTRY: i64 = 2; // a word of a list, a point or a half-space out of its limits
pub const ARG: i64 = 3; // reset: no such clock, or the value not 0 to 1,000,000
pub const RANGE: i64 = 4; // a result beyond 1,000,000
pub const GENS: i64 = 5; // a result of over 32 vectors
pub const ROOM: i64 = 6; // a walk with more states than the state area has records, or more than 64
pub const BYTES: i64 = 7; // bytes that are no model
pub const MODEL: i64 = 8; // a number of a model out of its limits

// Words of a result area, `out`, for n clocks: 32 vectors. A longer area is good too.
pub const fn result(n: usize) -> usize {
    32 * (n + 1)
}

// Words of one record of the state area for n clocks. A walk keeps at most 64 records, as many as the area has.
pub const fn record(n: usize) -> usize {
    4 + 32 * (n + 1)
}

unsafe extern "C" {
    fn scionwheel_contains(n: usize, list: *const i32, list_len: usize, point: *const i32, point_len: usize) -> i64;
    fn scionwheel_included(n: usize, inner: *const i32, inner_len: usize, outer: *const i32, outer_len: usize) -> i64;
    fn scionwheel_intersect(
        n: usize,
        list: *const i32,
        list_len: usize,
        half: *const i32,
        half_len: usize,
        out: *mut i32,
        out_len: usize,
    ) -> i64;
    fn scionwheel_delay(n: usize, list: *const i32, list_len: usize, out: *mut i32, out_len: usize) -> i64;
    fn scionwheel_reset(
        n: usize,
        list: *const i32,
        list_len: usize,
        clock: usize,
        value: i32,
        out: *mut i32,
        out_len: usize,
    ) -> i64;
    fn scionwheel_hull(
        n: usize,
        first: *const i32,
        first_len: usize,
        second: *const i32,
        second_len: usize,
        out: *mut i32,
        out_len: usize,
    ) -> i64;
    fn scionwheel_rewrite(bytes: *const u8, bytes_len: usize, out: *mut u8, out_len: usize) -> i64;
    fn scionwheel_walk(
        bytes: *const u8,
        bytes_len: usize,
        area: *mut i32,
        area_len: usize,
        counts: *mut [u64; 3], // one pointer
    ) -> i64;
    fn scionwheel_print(
        bytes: *const u8,
        bytes_len: usize,
        area: *mut i32,
        area_len: usize,
        text: *mut [u8; TEXT], // one pointer
    ) -> i64;
}

// Whether the point is in the list's set: 1 or 0.
pub fn contains(n: usize, list: &[i32], point: &[i32]) -> i64 {
    unsafe { scionwheel_contains(n, list.as_ptr(), list.len(), point.as_ptr(), point.len()) }
}

// Whether inner's set is in outer's: 1 or 0.
pub fn included(n: usize, inner: &[i32], outer: &[i32]) -> i64 {
    unsafe { scionwheel_included(n, inner.as_ptr(), inner.len(), outer.as_ptr(), outer.len()) }
}

// The vectors of the list's set that satisfy the half-space: how many stand in `out`.
pub fn intersect(n: usize, list: &[i32], half: &[i32], out: &mut [i32]) -> i64 {
    let (from, by, to) = (list.as_ptr(), half.as_ptr(), out.as_mut_ptr());
    unsafe { scionwheel_intersect(n, from, list.len(), by, half.len(), to, out.len()) }
}

// All vectors of the list's set, later by whole ticks: how many stand in `out`.
pub fn delay(n: usize, list: &[i32], out: &mut [i32]) -> i64 {
    unsafe { scionwheel_delay(n, list.as_ptr(), list.len(), out.as_mut_ptr(), out.len()) }
}

// All vectors of the list's set, one clock replaced by the value: how many stand in `out`.
pub fn reset(n: usize, list: &[i32], clock: usize, value: i32, out: &mut [i32]) -> i64 {
    unsafe { scionwheel_reset(n, list.as_ptr(), list.len(), clock, value, out.as_mut_ptr(), out.len()) }
}

// The smallest max-plus polyhedron that holds both lists' sets: how many vectors stand in `out`.
pub fn hull(n: usize, first: &[i32], second: &[i32], out: &mut [i32]) -> i64 {
    let (one, other, to) = (first.as_ptr(), second.as_ptr(), out.as_mut_ptr());
    unsafe { scionwheel_hull(n, one, first.len(), other, second.len(), to, out.len()) }
}

// Reads a model and writes it: how many bytes stand in `out`, the same as were read.
pub fn rewrite(bytes: &[u8], out: &mut [u8]) -> i64 {
    unsafe { scionwheel_rewrite(bytes.as_ptr(), bytes.len(), out.as_mut_ptr(), out.len()) }
}

// Walks a model: NEVER, REACHED or OPEN; `counts` gets 0, edges or depth, then states kept and candidates tried.
pub fn walk(bytes: &[u8], area: &mut [i32], counts: &mut [u64; 3]) -> i64 {
    unsafe { scionwheel_walk(bytes.as_ptr(), bytes.len(), area.as_mut_ptr(), area.len(), counts) }
}

// Walks a model and prints its answer: the text's length, at most 397.
pub fn print(bytes: &[u8], area: &mut [i32], text: &mut [u8; TEXT]) -> i64 {
    unsafe { scionwheel_print(bytes.as_ptr(), bytes.len(), area.as_mut_ptr(), area.len(), text) }
}
