// The printed answer.
use super::walk::{path, walked_over, Verdict, Walked};

// The bytes of the text area, and of the longest answer.
pub const TEXT: usize = 512;
const LONGEST: usize = 397;

fn text_of(walked: &Walked) -> String {
    let (kept, tried) = (walked.kept.len(), walked.tried);
    match walked.verdict {
        Verdict::Never => format!("NEVER {kept} {tried}\n"),
        Verdict::Open(depth) => format!("OPEN {depth} {kept} {tried}\n"),
        Verdict::Reached(edges) => {
            let steps = path(&walked.kept).into_iter().skip(1);
            let lines: String = steps.map(|state| format!("{} {}\n", state.edge, state.location)).collect();
            format!("REACHED {edges} {kept} {tried}\n{lines}")
        }
    }
}

// The length of the text, which stands at the start of its area.
pub fn print(bytes: &[u8], area: &mut [i32], text: &mut [u8; TEXT]) -> i64 {
    let line = match walked_over(bytes, area) {
        Err(refusal) => format!("REFUSED {refusal}\n"),
        Ok((_, walked)) => text_of(&walked),
    };
    assert!(line.len() <= LONGEST);
    text[..line.len()].copy_from_slice(line.as_bytes());
    line.len() as i64
}
