// The rule reference against brute force, on small inputs.
use crate::brute::{self, Cells, Runs};
use crate::random::{self, Plan, Random, Style};
use crate::rule::calls;
use crate::rule::model::{written, Bound, Model};
use crate::rule::numbers::number;
use crate::rule::sets;
use crate::rule::walk::{path, walked, Verdict, Walked};
use crate::tally::{differ, hex, Tally};

// Sizes of a small case: point entries to `points`, ray and half-space entries from −rays to rays.
struct Small {
    n: usize,
    points: i32,
    rays: i32,
}

impl Small {
    // A ray that outer rays do not generate shows itself at a weight of points + 3·rays + 1 at the latest.
    fn ceiling(&self) -> i32 {
        self.points + 4 * self.rays + 1
    }

    // With n − 1 clocks in the box, the clock that is reset need be higher by no more than two entries differ.
    fn wide(&self) -> i32 {
        self.ceiling() + self.points.max(2 * self.rays) + 1
    }

    fn list(&self, random: &mut Random) -> Vec<i32> {
        let count = random.pick(&[0, 1, 2, 3, 3, 4, 4, 5, 5, 6]);
        let mut list = random::vectors(random, self.n, Style::Small(self.rays.max(self.points) as i64), count);
        for vector in list.chunks_mut(self.n + 1) {
            let most = if vector[self.n] == 0 { self.points } else { self.rays };
            vector.iter_mut().filter(|word| **word != i32::MIN).for_each(|word| *word = (*word).clamp(-most, most));
        }
        list
    }
}

fn small(random: &mut Random) -> Small {
    let few = [(1, 4, 3), (2, 3, 2), (2, 4, 1), (2, 2, 1), (3, 2, 1), (3, 1, 1)];
    let many = [(4, 2, 0), (5, 1, 0)];
    let (n, points, rays) = if random.chance(5) { random.pick(&many) } else { random.pick(&few) };
    Small { n, points, rays }
}

fn shown(n: usize, parts: &[(&str, &[i32])]) -> String {
    let lines = parts.iter().map(|(name, words)| format!("  {name} {words:?}"));
    [format!("  clocks {n}")].into_iter().chain(lines).collect::<Vec<_>>().join("\n")
}

// The result's set is the wanted one, and its list is canonical.
fn made(tally: &mut Tally, call: &'static str, n: usize, wanted: &Cells, answer: i64, area: &[i32], input: &str) {
    if answer < 0 {
        differ(&format!("{call} of a small input refused {}", -answer), input);
    }
    let list = &area[..answer as usize * (n + 1)];
    if brute::members(n, list, wanted.ceiling) != *wanted {
        differ(&format!("{call} makes another set: {list:?}"), input);
    }
    if !brute::is_canonical(n, list) {
        differ(&format!("{call} makes a list that is not canonical: {list:?}"), input);
    }
    tally.add(call, format!("{} vectors", answer));
}

fn asked(tally: &mut Tally, call: &'static str, answer: i64, wanted: bool, input: &dyn Fn() -> String) {
    if answer != wanted as i64 {
        differ(&format!("{call} answers {answer}, by its meaning {wanted}"), &input());
    }
    tally.add(call, if wanted { "yes" } else { "no" });
}

fn questions(tally: &mut Tally, n: usize, lists: [&[i32]; 2], sets: [&Cells; 2]) {
    for clocks in sets[0].all() {
        let input = || shown(n, &[("list", lists[0]), ("point", &clocks)]);
        asked(tally, "contains", calls::contains(n, lists[0], &clocks), sets[0].has(&clocks), &input);
    }
    for (inner, outer) in [(0, 1), (1, 0)] {
        let input = || shown(n, &[("inner", lists[inner]), ("outer", lists[outer])]);
        let wanted = sets[inner].members().all(|clocks| sets[outer].has(&clocks));
        asked(tally, "included", calls::included(n, lists[inner], lists[outer]), wanted, &input);
    }
}

// Each point of an intersection, also one outside the box, is in the list's set and satisfies the half-space.
fn points_hold(n: usize, list: &[i32], half: &[i32], result: &[i32], input: &str) {
    for point in result.chunks(n + 1).filter(|vector| vector[n] == 0) {
        if !brute::satisfies(half, &point[..n]) || !brute::is_member(n, list, &point[..n]) {
            differ(&format!("intersect makes the point {point:?}, which is not wanted"), input);
        }
    }
}

fn makings(random: &mut Random, tally: &mut Tally, size: &Small, lists: [&[i32]; 2], wide: [&Cells; 2]) {
    let (n, ceiling) = (size.n, size.ceiling());
    let mut area = vec![7; 32 * (n + 1)];
    let low = wide[0].lowered(ceiling);
    let half = random::half(random, n, Style::Small(3));
    let input = shown(n, &[("list", lists[0]), ("half-space", &half)]);
    let answer = calls::intersect(n, lists[0], &half, &mut area);
    made(tally, "intersect", n, &brute::intersect(&low, &half), answer, &area, &input);
    points_hold(n, lists[0], &half, &area[..answer as usize * (n + 1)], &input);
    let answer = calls::delay(n, lists[0], &mut area);
    made(tally, "delay", n, &brute::delay(&low), answer, &area, &shown(n, &[("list", lists[0])]));
    let (clock, value) = (random.below(n), random.below(4) as i32);
    let input = shown(n, &[("list", lists[0]), ("clock, value", &[clock as i32, value])]);
    let answer = calls::reset(n, lists[0], clock, value, &mut area);
    made(tally, "reset", n, &brute::reset(wide[0], clock, value).lowered(ceiling), answer, &area, &input);
    let input = shown(n, &[("first", lists[0]), ("second", lists[1])]);
    let answer = calls::hull(n, lists[0], lists[1], &mut area);
    let wanted = brute::hull(wide[0], wide[1], -size.points - 1, ceiling);
    made(tally, "hull", n, &wanted, answer, &area, &input);
}

pub fn compare_sets(random: &mut Random, tally: &mut Tally) {
    let size = small(random);
    let (first, mut second) = (size.list(random), size.list(random));
    if random.chance(40) {
        let part = first.chunks(size.n + 1).filter(|_| random.chance(70));
        second = second.into_iter().take(size.n + 1).chain(part.flatten().copied()).collect();
    }
    let wide = [brute::members(size.n, &first, size.wide()), brute::members(size.n, &second, size.wide())];
    let low = [wide[0].lowered(size.ceiling()), wide[1].lowered(size.ceiling())];
    questions(tally, size.n, [&first, &second], [&low[0], &low[1]]);
    makings(random, tally, &size, [&first, &second], [&wide[0], &wide[1]]);
}

fn input_of(model: &Model) -> String {
    format!("  model {}", hex(&written(model)))
}

// The verdict against the least number of edges of an explicit run.
fn verdict_agrees(model: &Model, verdict: Verdict, least: Option<usize>) {
    let agrees = match verdict {
        Verdict::Reached(edges) => least == Some(edges),
        Verdict::Never => least.is_none(),
        Verdict::Open(depth) => least.unwrap_or(usize::MAX) > depth,
    };
    if !agrees {
        differ(&format!("the walk says {verdict:?}, the least edges of a run are {least:?}"), &input_of(model));
    }
}

fn path_agrees(runs: &Runs, walked: &Walked) {
    let edges: Vec<usize> = path(&walked.kept).iter().skip(1).map(|state| state.edge as usize).collect();
    if !runs.along(&edges) {
        differ(&format!("no run along the edges {edges:?} reaches the target"), &input_of(runs.model));
    }
}

// The kept states hold exactly the states of the runs with at most `most` edges; at an alike ceiling nothing is asked.
fn states_agree(runs: &Runs, walked: &Walked, layers: &[Vec<(usize, Vec<i32>)>], most: usize) {
    let mut seen = vec![Cells::new(runs.model.clocks, runs.ceiling); runs.model.invariants.len()];
    layers.iter().take(most + 1).flatten().for_each(|(location, clocks)| seen[*location].add(clocks));
    for (location, cells) in seen.iter().enumerate() {
        let lists: Vec<_> = walked.kept.iter().filter(|state| state.location == location).map(|state| &state.list).collect();
        for clocks in cells.all().filter(|clocks| !runs.alike || clocks.iter().all(|clock| *clock < runs.ceiling)) {
            let point = clocks.iter().map(|&clock| number(clock)).chain([Some(0)]).collect();
            let held = lists.iter().any(|list| sets::contains(list, &point));
            if held != cells.has(&clocks) {
                differ(&format!("location {location}, clocks {clocks:?}: kept {held}, met {}", !held), &input_of(runs.model));
            }
        }
    }
}

fn compare_model(tally: &mut Tally, class: &'static str, runs: &Runs, exact: bool) {
    let walked = match walked(runs.model, 64) {
        Ok(walked) => walked,
        Err(refusal) => return tally.add(class, format!("refused {refusal}, not compared")),
    };
    let layers = runs.layers();
    let least = layers.iter().position(|layer| layer.iter().any(|state| runs.at_target(state)));
    verdict_agrees(runs.model, walked.verdict, least);
    match walked.verdict {
        Verdict::Reached(_) => path_agrees(runs, &walked),
        Verdict::Never if exact => states_agree(runs, &walked, &layers, layers.len()),
        Verdict::Open(depth) if exact => states_agree(runs, &walked, &layers, depth),
        _ => (),
    }
    tally.add(
        class,
        match walked.verdict {
            Verdict::Reached(edges) => format!("REACHED {edges}"),
            Verdict::Never => "NEVER".to_string(),
            Verdict::Open(_) => "OPEN".to_string(),
        },
    );
}

fn small_plan(random: &mut Random, clocks: usize, style: Style, kinds: &'static [u8]) -> Plan {
    let (locations, bounds) = (1 + random.below(4), 1 + random.below(2));
    let edges = random.below(4 + 2 * locations);
    let depth = random.pick(&[0, 1, 2, 3, 4, 6, 30]);
    Plan { clocks, locations, edges, bounds, style, kinds, depth }
}

// Every clock has a largest value in every location: no run leaves the box.
pub fn compare_bounded(random: &mut Random, tally: &mut Tally) {
    let (clocks, most) = random.pick(&[(1, 7), (2, 6), (2, 5), (3, 4), (4, 3), (5, 2), (6, 2)]);
    let plan = small_plan(random, clocks, Style::Small(most), &[0, 1, 1, 2, 3, 4, 4]);
    let mut model = random::model(random, &plan);
    for list in &mut model.invariants {
        list.truncate(2);
        let limits = (0..clocks).map(|x| Bound::AtMost { x, k: random.between(most / 2, most) });
        list.extend(limits);
    }
    compare_model(tally, "bounded", &Runs { model: &model, ceiling: most as i32, alike: false }, true);
}

// Clocks are compared with constants only: all values over the largest constant behave alike.
pub fn compare_alike(random: &mut Random, tally: &mut Tally) {
    let (clocks, most) = random.pick(&[(1, 9), (2, 6), (3, 4), (4, 2)]);
    let plan = small_plan(random, clocks, Style::Small(most), &[0, 1, 1, 5]);
    let model = random::model(random, &plan);
    compare_model(tally, "alike", &Runs { model: &model, ceiling: most as i32 + 1, alike: true }, true);
}

// Plain bounds and few edges: where a run exists, one exists with no clock over (edges + 2) times the largest constant.
pub fn compare_few(random: &mut Random, tally: &mut Tally) {
    let clocks = 1 + random.below(3);
    let mut plan = small_plan(random, clocks, Style::Small(3), &[0, 1, 1, 2, 3]);
    plan.depth = plan.depth.min(4);
    let model = random::model(random, &plan);
    compare_model(tally, "few edges", &Runs { model: &model, ceiling: 18, alike: false }, false);
}
