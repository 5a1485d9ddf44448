// The six set calls on random lists, half-spaces, points and areas.
use crate::against::{ours, Input};
use crate::random::{self, Random};
use crate::rule::calls;
use crate::tally::Tally;

type Question = fn(usize, &[i32], &[i32]) -> i64;

// The numbers and the words that a call was given, before and after our call.
struct Given {
    call: &'static str,
    n: usize,
    numbers: Vec<(&'static str, i128)>,
    names: Vec<&'static str>,
    before: Vec<Vec<i32>>,
    after: Vec<Vec<i32>>,
}

impl Given {
    fn new(call: &'static str, n: usize, parts: Vec<(&'static str, Vec<i32>)>) -> Given {
        let (names, before): (Vec<_>, Vec<_>) = parts.into_iter().unzip();
        Given { call, n, numbers: vec![("clocks", n as i128)], names, after: before.clone(), before }
    }

    fn shown(&self, area: &[i32]) -> String {
        let numbers = self.numbers.iter().map(|(name, value)| format!("  {name} {value}"));
        let parts = self.names.iter().zip(&self.before).map(|(name, words)| format!("  {name} {words:?}"));
        let area = format!("  area of {} words: {area:?}", area.len());
        numbers.chain(parts).chain([area]).collect::<Vec<_>>().join("\n")
    }

    // Compares a question's answer; what was lent to read keeps its words.
    fn asked(&self, tally: &mut Tally, ours: Question, rule: Question) {
        let input = Input { call: self.call, shown: &|| self.shown(&[]) };
        input.announce();
        let our_answer = ours(self.n, &self.after[0], &self.after[1]);
        let rule = rule(self.n, &self.before[0], &self.before[1]);
        input.same_answer(our_answer, rule);
        self.untouched(&input);
        input.count(tally, rule, if rule == 1 { "yes" } else { "no" });
    }

    // Compares a making call's answer and its area, which is filled before.
    fn made(&self, random: &mut Random, tally: &mut Tally, ours: &dyn Fn(&mut [i32]) -> i64, rule: &dyn Fn(&mut [i32]) -> i64) {
        let length = random::length(random, 32 * (self.n.min(7) + 1));
        let area = random.filled_words(length);
        let (mut our_area, mut rule_area) = (area.clone(), area.clone());
        let input = Input { call: self.call, shown: &|| self.shown(&area) };
        input.announce();
        let (our_answer, rule_answer) = (ours(&mut our_area), rule(&mut rule_area));
        input.same_answer(our_answer, rule_answer);
        input.same_words("area", &our_area, &rule_area);
        self.untouched(&input);
        input.count(tally, rule_answer, how_many(rule_answer));
    }

    fn untouched(&self, input: &Input) {
        for (i, name) in self.names.iter().enumerate() {
            input.same_words(name, &self.after[i], &self.before[i]);
        }
    }
}

fn how_many(answer: i64) -> &'static str {
    match answer {
        0 => "no vectors",
        1..=8 => "1 to 8 vectors",
        9..=31 => "9 to 31 vectors",
        _ => "32 vectors",
    }
}

fn contains(random: &mut Random, tally: &mut Tally, n: usize, wide: usize) {
    let list = random::any_list(random, wide);
    let point = random::tested_point(random, wide, &list);
    let given = Given::new("contains", n, vec![("list", list), ("point", point)]);
    given.asked(tally, ours::contains, calls::contains);
}

fn included(random: &mut Random, tally: &mut Tally, n: usize, wide: usize) {
    let outer = random::any_list(random, wide);
    let inner = inner_list(random, wide, &outer);
    let given = Given::new("included", n, vec![("inner", inner), ("outer", outer)]);
    given.asked(tally, ours::included, calls::included);
}

// Often made from the outer list, so that both answers come.
fn inner_list(random: &mut Random, n: usize, outer: &[i32]) -> Vec<i32> {
    let (style, mut area) = (random::style(random), vec![0; 32 * (n + 1)]);
    let half = random::half(random, n, style);
    let count = match random.below(4) {
        0 => return random::any_list(random, n),
        1 => return outer.chunks(n + 1).filter(|_| random.chance(60)).flatten().copied().collect(),
        2 => calls::intersect(n, outer, &half, &mut area),
        _ => calls::delay(n, outer, &mut area),
    };
    area[..count.max(0) as usize * (n + 1)].to_vec()
}

fn intersect(random: &mut Random, tally: &mut Tally, n: usize, wide: usize) {
    let list = random::any_list(random, wide);
    let style = random::style(random);
    let half = random::half(random, wide, style);
    let half = if random.chance(6) { random::damaged_list(random, wide, half) } else { half };
    let given = Given::new("intersect", n, vec![("list", list), ("half-space", half)]);
    let ours = |area: &mut [i32]| ours::intersect(n, &given.after[0], &given.after[1], area);
    let rule = |area: &mut [i32]| calls::intersect(n, &given.before[0], &given.before[1], area);
    given.made(random, tally, &ours, &rule);
}

fn delay(random: &mut Random, tally: &mut Tally, n: usize, wide: usize) {
    let given = Given::new("delay", n, vec![("list", random::any_list(random, wide))]);
    let ours = |area: &mut [i32]| ours::delay(n, &given.after[0], area);
    let rule = |area: &mut [i32]| calls::delay(n, &given.before[0], area);
    given.made(random, tally, &ours, &rule);
}

fn reset(random: &mut Random, tally: &mut Tally, n: usize, wide: usize) {
    let odd = random.pick(&[n, usize::MAX, 6]);
    let clock = if random.chance(5) { odd } else { random.below(wide) };
    let value = if random.chance(8) {
        random.pick(&[1_000_001, -1, i32::MIN, i32::MAX])
    } else {
        random.pick(&[0, 0, 1, 5, 999_999, 1_000_000])
    };
    let mut given = Given::new("reset", n, vec![("list", random::any_list(random, wide))]);
    given.numbers.extend([("clock", clock as i128), ("value", value as i128)]);
    let ours = |area: &mut [i32]| ours::reset(n, &given.after[0], clock, value, area);
    let rule = |area: &mut [i32]| calls::reset(n, &given.before[0], clock, value, area);
    given.made(random, tally, &ours, &rule);
}

fn hull(random: &mut Random, tally: &mut Tally, n: usize, wide: usize) {
    let (first, second) = (random::any_list(random, wide), random::any_list(random, wide));
    let given = Given::new("hull", n, vec![("first", first), ("second", second)]);
    let ours = |area: &mut [i32]| ours::hull(n, &given.after[0], &given.after[1], area);
    let rule = |area: &mut [i32]| calls::hull(n, &given.before[0], &given.before[1], area);
    given.made(random, tally, &ours, &rule);
}

// One set call; where n is not a number of clocks the lists are made for 1 or 6.
pub fn compare(random: &mut Random, tally: &mut Tally) {
    let n = random::clocks(random);
    let call = random.pick(&[contains, included, intersect, intersect, delay, reset, hull]);
    call(random, tally, n, n.clamp(1, 6));
}
