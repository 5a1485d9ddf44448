// The tables of what callgrind counted.
use crate::calls::SIDES;
use crate::rows::{self, Row};
use crate::{dump_name, NOTHING};
use std::collections::HashMap;
use std::fs;

const HEAD: &str = "Instructions of one call, counted by callgrind; each byte of a fill or copy by `rep` is one.
The twin is a release build: opt-level 3, one codegen unit, no LTO.";
const TRIGGER: &str = "desc: Trigger: Client Request: ";

// The name of a dump and its instructions.
fn dump(text: &str) -> Option<(String, u64)> {
    let behind = |head: &str| text.lines().find_map(|line| line.strip_prefix(head));
    let total = behind("totals:").or(behind("summary:"))?;
    Some((behind(TRIGGER)?.to_string(), total.split_whitespace().next()?.parse().ok()?))
}

fn dumps(folder: &str) -> Result<HashMap<String, u64>, String> {
    let entries = fs::read_dir(folder).map_err(|error| format!("{folder}: {error}"))?;
    let texts = entries.flatten().filter_map(|entry| fs::read_to_string(entry.path()).ok());
    Ok(texts.filter_map(|text| dump(&text)).collect())
}

// What each side counts for a row, without what the counting costs.
fn counts(dumps: &HashMap<String, u64>, row: &Row) -> Result<Vec<u64>, String> {
    let of = |name: String| dumps.get(&name).copied().ok_or(format!("no dump for {name}"));
    let nothing = of(NOTHING.to_string())?;
    SIDES.iter().map(|side| Ok(of(dump_name(side.name, &row.name()))?.saturating_sub(nothing))).collect()
}

fn ratio(counts: &[u64]) -> Option<f64> {
    match counts {
        [ours, twin] => Some(*ours as f64 / *twin as f64),
        _ => None,
    }
}

fn grouped(count: u64) -> String {
    if count < 1000 {
        count.to_string()
    } else {
        format!("{},{:03}", grouped(count / 1000), count % 1000)
    }
}

fn cells(counts: &[u64]) -> Vec<String> {
    let ratio = ratio(counts).map(|ratio| format!("{ratio:.2}"));
    counts.iter().map(|&count| grouped(count)).chain(ratio).collect()
}

fn line(cells: &[String]) {
    println!("| {} |", cells.join(" | "));
}

fn head(first: &[String], numbers: usize) {
    line(first);
    println!("|{}{}", "---|".repeat(first.len() - numbers), "---:|".repeat(numbers));
}

fn rows_table(rows: &[(Row, Vec<u64>)]) {
    let sides = SIDES.iter().map(|side| side.name);
    let names = ["row"].into_iter().chain(sides).chain((SIDES.len() == 2).then_some("ratio"));
    let names: Vec<String> = names.map(str::to_string).collect();
    head(&names, names.len() - 1);
    for (row, counts) in rows {
        line(&[vec![row.name()], cells(counts)].concat());
    }
}

// A line for each size and a column for each number of clocks.
fn growth_table(rows: &[(Row, Vec<u64>)], family: &str) {
    let of: Vec<&(Row, Vec<u64>)> = rows.iter().filter(|(row, _)| row.family == family).collect();
    let distinct = |field: fn(&Row) -> usize| {
        let mut all: Vec<usize> = of.iter().map(|(row, _)| field(row)).collect();
        all.sort_unstable();
        all.dedup();
        all
    };
    let (sizes, clocks) = (distinct(|row| row.size), distinct(|row| row.clocks));
    let columns: Vec<String> = clocks.iter().map(|n| format!("{n} clocks")).collect();
    println!("\n{}\n", SIDES.iter().map(|side| side.name).collect::<Vec<_>>().join(" / "));
    head(&[vec![family.to_string()], columns].concat(), clocks.len());
    for size in sizes {
        let cell = |n: &usize| {
            let found = of.iter().find(|(row, _)| (row.size, row.clocks) == (size, *n));
            let counts = found.map(|(_, counts)| counts.iter().map(|&count| grouped(count)).collect::<Vec<_>>());
            counts.map_or(String::new(), |counts| counts.join(" / "))
        };
        line(&[vec![size.to_string()], clocks.iter().map(cell).collect()].concat());
    }
}

// Prints the tables: true if no row's ratio is above 1.
pub fn print(folder: &str) -> Result<bool, String> {
    let dumps = dumps(folder)?;
    let with_counts = |row: Row| counts(&dumps, &row).map(|counts| (row, counts));
    let rows = rows::all().into_iter().map(with_counts).collect::<Result<Vec<_>, String>>()?;
    println!("{HEAD}\n");
    rows_table(&rows);
    for family in ["intersect, vectors before cleaning", "walk, states kept"] {
        growth_table(&rows, family);
    }
    let above = rows.iter().filter(|(_, counts)| ratio(counts).is_some_and(|ratio| ratio > 1.0)).count();
    println!("\n{} rows, {above} with a ratio above 1", rows.len());
    Ok(above == 0)
}
