//! The tables, in Markdown.
use crate::clock::Times;
use crate::inputs::Shape;
use crate::rows::Row;
use crate::worst::Worst;
use cartgravel::Number;

/// Time per call, row by row; the crate's own call of a start is `Tree::new`.
pub fn calls(rows: &[Row]) {
    println!("| call | state | ours, µs | crate, µs | ours / crate | ours / `Tree::new` |");
    println!("|---|---|---|---|---|---|");
    for row in rows {
        let theirs = row.theirs.as_ref().unwrap_or(&row.start);
        let (call, state, ours, crate_time) = (&row.call, state(row.shape), time(&row.ours), time(theirs));
        let (beside, start) = (row.ours.ratio(theirs), row.ours.ratio(&row.start));
        println!("| {call} | {state} | {ours} | {crate_time} | {beside:.1} | {start:.2} |");
    }
}

/// How the medians grow with the tree, four children a node.
pub fn growth(rows: &[Row]) {
    println!("\n| call | side | 16 nodes | 48 | 128 | 256 |");
    println!("|---|---|---|---|---|---|");
    let bushy = |row: &&Row| row.shape.fan == 4;
    for first in rows.iter().filter(bushy).filter(|row| row.shape.nodes == 48) {
        let same: Vec<&Row> = rows.iter().filter(bushy).filter(|row| row.call == first.call).collect();
        line(&first.call, "ours", same.iter().map(|row| &row.ours));
        line(&first.call, "crate", same.iter().flat_map(|row| &row.theirs));
    }
    let labels: Vec<&Row> = rows.iter().filter(bushy).filter(|row| row.call == "one label").collect();
    line("`Tree::new`", "crate", labels.iter().map(|row| &row.start));
}

/// A line of medians.
fn line<'a>(call: &str, side: &str, times: impl Iterator<Item = &'a Times>) {
    print!("| {call} | {side} |");
    times.for_each(|times| print!(" {} |", digits(times.median())));
    println!();
}

/// Time per refused batch.
pub fn refusals(rows: &[(Number, Row)]) {
    println!("\n| refused with | state | µs | / `Tree::new` |");
    println!("|---|---|---|---|");
    for (number, row) in rows {
        let (state, ours, start) = (state(row.shape), time(&row.ours), row.ours.ratio(&row.start));
        println!("| {}, {} | {state} | {ours} | {start:.2} |", *number as u8, row.call);
    }
}

/// The slowest batches that were found, beside one label on 256 nodes.
pub fn worst(rows: &[Worst]) {
    println!("\n| the slowest found | µs | one label on 256 nodes, µs | ratio |");
    println!("|---|---|---|---|");
    for row in rows {
        let (ours, label, ratio) = (time(&row.ours), time(&row.label), row.ours.ratio(&row.label));
        println!("| {} | {ours} | {label} | {ratio:.2} |", row.what);
    }
}

/// The median, and the least in brackets.
fn time(times: &Times) -> String {
    format!("{} ({})", digits(times.median()), digits(times.least()))
}

/// A time with one decimal, with two if it is below 1.
fn digits(time: f64) -> String {
    if time < 1.0 { format!("{time:.2}") } else { format!("{time:.1}") }
}

/// The state in words.
fn state(shape: Shape) -> String {
    let chain = if shape.fan == 1 { ", a chain" } else { "" };
    format!("{} nodes{chain}", shape.nodes)
}
