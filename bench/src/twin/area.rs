// The state area: records of the kept states, written and read back.
use super::sets;

pub fn size(n: usize) -> usize {
    4 + 32 * (n + 1)
}

pub fn room(area: &[i32], n: usize) -> usize {
    (area.len() / size(n)).min(64)
}

// Writes a record behind the first k: location, parent, edge, vector count, the list, and 0 behind it.
pub fn keep(area: &mut [i32], n: usize, k: usize, head: [i32; 3], list: &[i32]) {
    let record = &mut area[k * size(n)..(k + 1) * size(n)];
    record.fill(0);
    record[..3].copy_from_slice(&head);
    record[3] = (list.len() / (n + 1)) as i32;
    record[4..4 + list.len()].copy_from_slice(list);
}

pub fn location(area: &[i32], n: usize, i: usize) -> u32 {
    area[i * size(n)] as u32
}

pub fn list(area: &[i32], n: usize, i: usize) -> &[i32] {
    let at = i * size(n);
    let long = area[at + 3] as usize * (n + 1);
    &area[at + 4..at + 4 + long]
}

// Whether one of the first k states is in the location and includes the list.
pub fn covered(area: &[i32], n: usize, k: usize, q: u32, words: &[i32]) -> bool {
    (0..k).any(|i| location(area, n, i) == q && matches!(sets::included(n, words, list(area, n, i)), Ok(true)))
}
