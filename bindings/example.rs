// Asks, makes, walks, prints, and is refused once. bindings/run builds it and compares what it prints.
#[allow(dead_code)]
#[path = "scionwheel.rs"]
mod scionwheel;

use scionwheel::{AREA, BYTES, MARK as M, REACHED, TEXT};

// Example 10 of docs/RULES.md.
const MODEL: [u8; 29] = [
    0x02, 0x02, 0x02, 0x00, 0x01, 0x00, 0x00, 0x04, 0x01, 0x00, 0x01, 0x06, 0x00, 0x00, 0x01, //
    0x01, 0x00, 0x02, 0x03, 0x00, 0x01, 0x00, 0x02, 0x01, 0x01, 0x01, 0x00, 0x0A, 0x08,
];

fn shown<T: ToString>(words: &[T]) -> String {
    words.iter().map(T::to_string).collect::<Vec<_>>().join(" ")
}

fn main() {
    // Points (0,0) and (5,0), the half-space clock 0 >= 2, the point (3,0).
    let (list, half, point) = ([0, 0, 0, 5, 0, 0], [M, M, 2, 0, M, M], [3, 0]);
    let mut out = [0; scionwheel::result(2)];
    println!("contains {}", scionwheel::contains(2, &list, &point));
    let count = scionwheel::intersect(2, &list, &half, &mut out);
    println!("intersect {count}: {}", shown(&out[..3 * count as usize]));

    let (mut area, mut counts, mut text) = (vec![0; AREA], [0; 3], [0; TEXT]);
    let verdict = scionwheel::walk(&MODEL, &mut area, &mut counts);
    println!("walk {}: {}", if verdict == REACHED { "reached" } else { "other" }, shown(&counts));
    let length = scionwheel::print(&MODEL, &mut area, &mut text) as usize;
    print!("{}", String::from_utf8_lossy(&text[..length]));

    // Without its last byte it is no model: a refusal, and the counts stay.
    let answer = scionwheel::walk(&MODEL[..28], &mut area, &mut counts);
    println!("refused {}: {}", if answer == -BYTES { "BYTES" } else { "otherwise" }, shown(&counts));
}
