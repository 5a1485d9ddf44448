// The calls over a model's bytes: read and write back, walk, print.
use crate::against::{ours, Input};
use crate::random::{self, Random};
use crate::rule::model::written;
use crate::rule::{model, text, walk};
use crate::tally::{hex, Tally};

fn shown(bytes: &[u8], areas: &[(&str, usize)]) -> String {
    let areas = areas.iter().map(|(name, length)| format!("\n  {name} of {length}"));
    format!("  bytes {}{}", hex(bytes), areas.collect::<String>())
}

// The bytes are read and written back, also into areas about as long as the longest model.
fn rewrite(random: &mut Random, tally: &mut Tally, bytes: &[u8]) {
    let long = random.chance(10);
    let length = if long { random.pick(&[33_663, 33_664, 33_665, 40_000]) } else { random::length(random, bytes.len()) };
    let before = random.filled_bytes(length);
    let (mut our_out, mut rule_out, given) = (before.clone(), before, bytes.to_vec());
    let input = Input { call: "rewrite", shown: &|| shown(bytes, &[("area", length)]) };
    input.announce();
    let [ours, rule] = [ours::rewrite(&given, &mut our_out), model::rewrite(bytes, &mut rule_out)];
    input.same_answer(ours, rule);
    input.same_words("area", &our_out, &rule_out);
    input.same_words("bytes", &given, bytes);
    input.count(tally, rule, "written");
}

// Verdict, counts, and every word of the state area; the counts of a refusal are those that were there.
fn walks(random: &mut Random, tally: &mut Tally, bytes: &[u8], words: usize) {
    let before = random.filled_words(words);
    let (mut our_area, mut rule_area, given) = (before.clone(), before, bytes.to_vec());
    let counts = random.filled_counts();
    let (mut our_counts, mut rule_counts) = (counts, counts);
    let input = Input { call: "walk", shown: &|| shown(bytes, &[("state area", words)]) };
    input.announce();
    let ours = ours::walk(&given, &mut our_area, &mut our_counts);
    let rule = walk::walk(bytes, &mut rule_area, &mut rule_counts);
    input.same_answer(ours, rule);
    input.same_words("counts", &our_counts, &rule_counts);
    input.same_words("state area", &our_area, &rule_area);
    input.same_words("bytes", &given, bytes);
    input.count(tally, rule, ["NEVER", "REACHED", "OPEN"][rule.max(0) as usize]);
}

// The length, the text and what is behind it, and the state area.
fn prints(random: &mut Random, tally: &mut Tally, bytes: &[u8], words: usize) {
    let (area, before) = (random.filled_words(words), random.filled_text());
    let (mut our_area, mut our_text) = (area.clone(), before);
    let (mut rule_area, mut rule_text, given) = (area, before, bytes.to_vec());
    let input = Input { call: "print", shown: &|| shown(bytes, &[("state area", words)]) };
    input.announce();
    let ours = ours::print(&given, &mut our_area, &mut our_text);
    let rule = text::print(bytes, &mut rule_area, &mut rule_text);
    input.same_answer(ours, rule);
    input.same_words("text area", &our_text, &rule_text);
    input.same_words("state area", &our_area, &rule_area);
    input.same_words("bytes", &given, bytes);
    let first = rule_text.split(|byte| *byte == b' ').next().unwrap_or_default();
    input.count(tally, rule, &String::from_utf8_lossy(first));
}

// A state area of 0 to 66 records, with some words more.
fn area_words(random: &mut Random, bytes: &[u8]) -> usize {
    let clocks = bytes.first().map_or(1, |&byte| byte.clamp(1, 6)) as usize;
    let record = 4 + 32 * (clocks + 1);
    let whole = record * random.pick(&[0, 1, 2, 3, 5, 9, 20, 64, 64, 64, 64, 65, 66]);
    whole + if random.chance(30) { random.below(record) } else { 0 }
}

fn all_calls(random: &mut Random, tally: &mut Tally, bytes: &[u8]) {
    rewrite(random, tally, bytes);
    let words = area_words(random, bytes);
    walks(random, tally, bytes, words);
    if random.chance(50) {
        prints(random, tally, bytes, words);
    }
}

// One model: valid, with one other number or a long one, or with damaged bytes.
pub fn compare(random: &mut Random, tally: &mut Tally) {
    let plan = random::plan(random);
    let model = match random.below(100) {
        0..=3 => random::growing_model(random),
        4..=15 => random::stretched_model(random),
        16..=18 => random::long_model(random),
        _ => random::model(random, &plan),
    };
    let bytes = match random.below(10) {
        0 => random::with_other_number(random, &model),
        1 => random::with_long_number(random, &model),
        2 => random::damaged_bytes(random, &model),
        _ => written(&model),
    };
    all_calls(random, tally, &bytes);
}

// One small model: each byte changed in several ways, each cut, and some longer forms.
pub fn compare_every_byte(random: &mut Random, tally: &mut Tally) {
    let bytes = written(&random::small_model(random));
    for at in 0..bytes.len() {
        for value in [0, bytes[at] ^ 128, bytes[at].wrapping_add(1), 255, random.next() as u8] {
            let mut changed = bytes.clone();
            changed[at] = value;
            all_calls(random, tally, &changed);
        }
        all_calls(random, tally, &bytes[..at]);
    }
    for more in 1..4 {
        let behind = vec![random.next() as u8; more];
        all_calls(random, tally, &[&bytes[..], &behind].concat());
    }
}

// The longest model, one byte more and much more, and with its end cut off.
pub fn compare_longest(random: &mut Random, tally: &mut Tally) {
    let bytes = written(&random::longest_model(random));
    assert_eq!(bytes.len(), 33_664);
    for more in [0, 1, 2, 40_000] {
        all_calls(random, tally, &[bytes.clone(), vec![1; more]].concat());
    }
    for cut in [1, 2, 3, 1000, 33_663] {
        all_calls(random, tally, &bytes[..bytes.len() - cut]);
    }
}
