// The twin against the reference of the rules, on random input: each answer and every lent word.
#![allow(dead_code)]
#[path = "../../compare/src/random.rs"]
mod random;
#[path = "../../compare/src/rule/mod.rs"]
mod rule;
#[path = "../src/twin/mod.rs"]
mod twin;

use random::Random;
use rule::{calls, model, text, walk};
use std::fmt::Debug;
use text::TEXT;

fn same<T: Clone + PartialEq + Debug>(area: &[T], twin: impl Fn(&mut [T]) -> i64, rule: impl Fn(&mut [T]) -> i64) {
    let (mut by_twin, mut by_rule) = (area.to_vec(), area.to_vec());
    assert_eq!(twin(&mut by_twin), rule(&mut by_rule));
    assert_eq!(by_twin, by_rule);
}

#[test]
fn set_calls() {
    let random = &mut Random::new(1);
    for _ in 0..40_000 {
        let n = random::clocks(random);
        let wide = n.clamp(1, 6);
        let (list, other, style) = (random::any_list(random, wide), random::any_list(random, wide), random::style(random));
        let (half, point) = (random::half(random, wide, style), random::tested_point(random, wide, &list));
        let (clock, value) = (random.below(wide + 1), random.pick(&[0, 5, 1_000_000, 1_000_001, -1]));
        let length = random::length(random, 32 * (n.min(7) + 1));
        let area = random.filled_words(length);
        assert_eq!(twin::contains(n, &list, &point), calls::contains(n, &list, &point));
        assert_eq!(twin::included(n, &list, &other), calls::included(n, &list, &other));
        same(&area, |out| twin::intersect(n, &list, &half, out), |out| calls::intersect(n, &list, &half, out));
        same(&area, |out| twin::delay(n, &list, out), |out| calls::delay(n, &list, out));
        same(&area, |out| twin::reset(n, &list, clock, value, out), |out| calls::reset(n, &list, clock, value, out));
        same(&area, |out| twin::hull(n, &list, &other, out), |out| calls::hull(n, &list, &other, out));
    }
}

// Counts and text are lent beside the area.
fn same_walk(bytes: &[u8], area: &[i32], counts: [u64; 3], text: [u8; TEXT]) {
    let of = |walk: fn(&[u8], &mut [i32], &mut [u64; 3]) -> i64| {
        let (mut area, mut counts) = (area.to_vec(), counts);
        (walk(bytes, &mut area, &mut counts), area, counts)
    };
    assert_eq!(of(twin::walk), of(walk::walk));
    let of = |print: fn(&[u8], &mut [i32], &mut [u8; TEXT]) -> i64| {
        let (mut area, mut text) = (area.to_vec(), text);
        (print(bytes, &mut area, &mut text), area, text)
    };
    assert_eq!(of(twin::print), of(text::print));
}

#[test]
fn model_calls() {
    let random = &mut Random::new(2);
    for _ in 0..12_000 {
        let plan = random::plan(random);
        let made = if random.chance(10) { random::long_model(random) } else { random::model(random, &plan) };
        let bytes = match random.below(6) {
            0 => random::damaged_bytes(random, &made),
            1 => random::with_other_number(random, &made),
            2 => random::with_long_number(random, &made),
            _ => model::written(&made),
        };
        let (words, length) = (random.below(64 * 228), random::length(random, bytes.len()));
        let (area, out) = (random.filled_words(words), random.filled_bytes(length));
        same(&out, |out| twin::rewrite(&bytes, out), |out| model::rewrite(&bytes, out));
        same_walk(&bytes, &area, random.filled_counts(), random.filled_text());
    }
}
