// The library against the rule: the answer and every lent word.
use crate::tally::{differ, Tally};
use std::sync::OnceLock;

#[cfg(feature = "ours")]
pub(crate) use crate::ours;

// Without the feature the rule stands in the library's place: then the answers are counted only.
#[cfg(not(feature = "ours"))]
pub mod ours {
    pub use crate::rule::calls::{contains, delay, hull, included, intersect, reset};
    pub use crate::rule::model::rewrite;
    pub use crate::rule::text::print;
    pub use crate::rule::walk::walk;
}

#[cfg(feature = "ours")]
pub const TITLE: &str = "ours and rule";
#[cfg(not(feature = "ours"))]
pub const TITLE: &str = "rule alone, answers counted";

// The name of a call, and what it was given, as it was before the call.
pub struct Input<'a> {
    pub call: &'static str,
    pub shown: &'a dyn Fn() -> String,
}

// With COMPARE_TRACE set each input is printed before our call: the last one is the one at which a call did not return.
fn traced() -> bool {
    static TRACED: OnceLock<bool> = OnceLock::new();
    *TRACED.get_or_init(|| std::env::var_os("COMPARE_TRACE").is_some())
}

impl Input<'_> {
    pub fn announce(&self) {
        if traced() {
            eprintln!("{}\n{}", self.call, (self.shown)());
        }
    }

    pub fn same_answer(&self, ours: i64, rule: i64) {
        if ours != rule {
            differ(&format!("{} answers {ours}, by the rule {rule}", self.call), &(self.shown)());
        }
    }

    pub fn same_words<T: PartialEq + std::fmt::Debug>(&self, name: &str, ours: &[T], rule: &[T]) {
        if let Some(at) = (0..rule.len()).find(|&at| ours[at] != rule[at]) {
            let what = format!("{}: word {at} of the {name} is {:?}, by the rule {:?}", self.call, ours[at], rule[at]);
            differ(&what, &(self.shown)());
        }
    }

    // Counts the answer: a refusal by its number, any other by its name.
    pub fn count(&self, tally: &mut Tally, answer: i64, name: &str) {
        tally.add(self.call, if answer < 0 { format!("refused {}", -answer) } else { name.to_string() });
    }
}
