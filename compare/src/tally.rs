// How often each answer was seen, and the end at the first difference.
use std::collections::BTreeMap;

#[derive(Default)]
pub struct Tally {
    seen: BTreeMap<(&'static str, String), u64>,
    pub cases: u64,
}

impl Tally {
    pub fn add(&mut self, call: &'static str, answer: impl Into<String>) {
        *self.seen.entry((call, answer.into())).or_default() += 1;
        self.cases += 1;
    }

    pub fn print(&self, title: &str) {
        println!("{title}: {} cases", self.cases);
        for ((call, answer), count) in &self.seen {
            println!("  {call:<12} {answer:<36} {count}");
        }
    }
}

pub fn hex(bytes: &[u8]) -> String {
    bytes.iter().map(|byte| format!("{byte:02X}")).collect::<Vec<_>>().join(" ")
}

// Prints the input that shows the difference, and ends.
pub fn differ(what: &str, input: &str) -> ! {
    println!("DIFFERENCE: {what}");
    println!("{input}");
    std::process::exit(1);
}
