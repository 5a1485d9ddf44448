// Compares the rule with its meaning and, with the feature `ours`, the checker's library with the rule.
mod against;
mod brute;
mod examples;
mod meaning;
mod model_calls;
#[cfg(feature = "ours")]
#[allow(dead_code)]
#[path = "../../bindings/scionwheel.rs"]
mod ours;
mod random;
mod rule;
mod set_calls;
mod tally;

use random::Random;
use tally::Tally;

// How many cases of each part.
struct Amount {
    sets: usize,
    runs: usize,
    calls: usize,
    models: usize,
    damages: usize,
}

const SHORT: Amount = Amount { sets: 1_500, runs: 1_500, calls: 60_000, models: 4_000, damages: 25 };
const LONG: Amount = Amount { sets: 15_000, runs: 15_000, calls: 600_000, models: 40_000, damages: 400 };

fn meaning_part(amount: &Amount, seed: u64) {
    let mut random = Random::new(seed);
    let (mut sets, mut runs) = (Tally::default(), Tally::default());
    for _ in 0..amount.sets {
        meaning::compare_sets(&mut random, &mut sets);
    }
    for _ in 0..amount.runs {
        meaning::compare_bounded(&mut random, &mut runs);
        meaning::compare_alike(&mut random, &mut runs);
        meaning::compare_few(&mut random, &mut runs);
    }
    sets.print("rule and meaning, sets");
    runs.print("rule and meaning, runs");
}

fn calls_part(amount: &Amount, seed: u64) {
    let mut random = Random::new(seed ^ 0x5C10);
    let (mut sets, mut models) = (Tally::default(), Tally::default());
    for _ in 0..amount.calls {
        set_calls::compare(&mut random, &mut sets);
    }
    for _ in 0..amount.models {
        model_calls::compare(&mut random, &mut models);
    }
    for _ in 0..amount.damages {
        model_calls::compare_every_byte(&mut random, &mut models);
    }
    model_calls::compare_longest(&mut random, &mut models);
    sets.print(&format!("{}, set calls", against::TITLE));
    models.print(&format!("{}, models", against::TITLE));
}

fn main() {
    let words: Vec<String> = std::env::args().skip(1).collect();
    let amount = match words.first().map(String::as_str) {
        Some("short") => SHORT,
        Some("long") => LONG,
        _ => {
            println!("compare short [seed] | compare long [seed]");
            std::process::exit(2);
        }
    };
    let seed = words.get(1).map_or(1, |word| word.parse().expect("a seed"));
    println!("seed {seed}");
    examples::compare();
    meaning_part(&amount, seed);
    calls_part(&amount, seed);
    println!("no difference");
}
