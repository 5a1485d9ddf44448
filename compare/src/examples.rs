// The examples of the rules, by number, as they are printed there.
use crate::against::ours;
use crate::tally::differ;

const M: i32 = i32::MIN;

const MODEL: [u8; 29] = [2, 2, 2, 0, 1, 0, 0, 4, 1, 0, 1, 6, 0, 0, 1, 1, 0, 2, 3, 0, 1, 0, 2, 1, 1, 1, 0, 10, 8];

fn expect<T: PartialEq + std::fmt::Debug>(number: usize, got: T, wanted: T) {
    if got != wanted {
        differ(&format!("example {number} gives {got:?}"), &format!("  wanted {wanted:?}"));
    }
}

// What a making call leaves at the start of its area, or its refusal.
fn made(n: usize, call: impl Fn(&mut [i32]) -> i64) -> Result<Vec<i32>, i64> {
    let mut area = vec![7; 32 * (n + 1)];
    let answer = call(&mut area);
    if answer < 0 {
        Err(-answer)
    } else {
        Ok(area[..answer as usize * (n + 1)].to_vec())
    }
}

fn sets() {
    let cone = [1, 1, 0, -2, 0, M, 0, -2, M];
    expect(1, made(1, |area| ours::delay(1, &[0, 0], area)), Ok(vec![0, 0, 0, M]));
    expect(2, made(2, |area| ours::delay(2, &[1, 1, 0, 3, 1, 0, 1, 3, 0], area)), Ok(cone.to_vec()));
    expect(3, made(2, |area| ours::reset(2, &cone, 0, 0, area)), Ok(vec![0, 1, 0, M, 0, M]));
    expect(4, [ours::contains(2, &cone, &[2, 4]), ours::contains(2, &cone, &[2, 5])], [1, 0]);
    let hull = made(2, |area| ours::hull(2, &[0, 0, 0], &[2, 1, 0], area)).unwrap_or_default();
    expect(5, [ours::contains(2, &hull, &[1, 0]), ours::contains(2, &hull, &[1, 1])], [1, 0]);
    expect(6, made(2, |area| ours::intersect(2, &[0, 0, 0, 5, 0, 0], &[M, M, 2, 0, M, M], area)), Ok(vec![2, 0, 0, 5, 0, 0]));
    expect(7, ours::included(1, &[0, M], &[]), 1);
    let second = [M, M, 1, M, 0, M];
    expect(8, made(2, |area| ours::intersect(2, &[1_000_000, 0, 0, 0, -1_000_000, M], &second, area)), Err(4));
    let wanted = Ok(vec![1_000_000, 1, 0, 0, 0, M]);
    expect(8, made(2, |area| ours::intersect(2, &[1_000_000, 0, 0, 0, 0, M], &second, area)), wanted);
    let chain: Vec<i32> = (0..32).flat_map(|i| [i, 32 - i, 0]).collect();
    expect(9, made(2, |area| ours::hull(2, &chain, &chain, area)), Ok(chain.clone()));
    expect(9, made(2, |area| ours::hull(2, &chain, &[32, 0, 0], area)), Err(5));
}

fn text(bytes: &[u8]) -> String {
    let (mut area, mut text) = (vec![7; 6400], [7; 512]);
    let length = ours::print(bytes, &mut area, &mut text).max(0) as usize;
    String::from_utf8_lossy(&text[..length]).into_owned()
}

fn models() {
    let mut bytes = MODEL;
    expect(10, text(&bytes), "REACHED 1 2 2\n1 1\n".to_string());
    let mut area = vec![7; 200];
    expect(10, ours::walk(&bytes, &mut area, &mut [0; 3]), 1);
    expect(10, &area[100..113], &[1, 0, 1, 3, 0, 0, 0, 6, 6, 0, 10, 6, 0][..]);
    bytes[27] = 11;
    expect(10, text(&bytes), "NEVER 2 2\n".to_string());
    bytes[28] = 1;
    expect(10, text(&bytes), "OPEN 1 2 2\n".to_string());
    expect(11, text(&[0x80, 0x00]), "REFUSED 7\n".to_string());
    let largest = [2, 1, 0, 0, 0, 0, 1, 4, 0, 0, 0x0B, 1, 1, 0, 0];
    expect(12, text(&largest), "REACHED 0 1 0\n".to_string());
}

pub fn compare() {
    sets();
    models();
    println!("examples 1 to 12 hold");
}
