//! The questions' tables, in Markdown.
use crate::asked::{Asked, Row, asked, last_rows, rows, walked};
use crate::screens::{Screen, ends, usual, worst};

/// A row on a state, and what it took.
struct Cell {
    row: usize,
    screen: usize,
    asked: Asked,
}

/// Prints the tables of all states, or of those that `part` names: `48`, `256`, `worst`.
pub fn print(part: Option<&str>) {
    let parts = [("48", 48, usual as fn(u64) -> Vec<Screen>), ("256", 256, usual), ("worst", 256, worst)];
    let (rows, mut screens, mut cells) = (rows(), vec![], vec![]);
    for (_, nodes, made) in parts.into_iter().filter(|(name, ..)| part.is_none_or(|part| part == *name)) {
        println!("\n{nodes} nodes: our own work / the crate's time, µs, and the ratio.\n");
        let from = screens.len();
        screens.extend(made(nodes));
        matrix(&rows, &screens[from..], from, &mut cells);
    }
    println!("\nThe slowest state of each question, of all above.\n");
    slowest(&rows, &screens, &cells);
    println!("\nA whole walk by `next` over the filtered siblings after a node in the middle.\n");
    walks(&screens);
}

/// Prints the table of the last nodes.
pub fn print_last() {
    println!("\n256 nodes, the last one: our own work / the crate's time, µs, and the ratio.\n");
    matrix(&last_rows(), &ends(256), 0, &mut vec![]);
}

/// A line for each question, a column for each state.
fn matrix(rows: &[Row], screens: &[Screen], from: usize, cells: &mut Vec<Cell>) {
    let names: Vec<&str> = screens.iter().map(|screen| screen.name).collect();
    println!("| question | {} |", names.join(" | "));
    println!("|---|{}", "---|".repeat(screens.len()));
    let mut judged: Vec<Vec<f64>> = vec![vec![]; screens.len()];
    for (k, row) in rows.iter().enumerate() {
        print!("| {} |", row.words);
        for (s, screen) in screens.iter().enumerate() {
            let asked = asked(screen, row);
            print!(" {} / {} = {} |", digits(asked.own), digits(asked.theirs), two(asked.own / asked.theirs));
            judged[s].push(asked.judged);
            cells.push(Cell { row: k, screen: from + s, asked });
        }
        println!();
    }
    print!("| judging the state, besides |");
    for times in &mut judged {
        times.sort_by(f64::total_cmp);
        print!(" {} |", digits(times[times.len() / 2]));
    }
    println!();
}

/// For each question the state with the longest whole question.
fn slowest(rows: &[Row], screens: &[Screen], cells: &[Cell]) {
    println!(
        "| question | state | the whole question, µs | judging, µs | own work, µs | the crate, µs | own work / crate |"
    );
    println!("|---|---|---|---|---|---|---|");
    for (k, row) in rows.iter().enumerate() {
        let of_row = cells.iter().filter(|cell| cell.row == k);
        let cell = of_row.max_by(|x, y| x.asked.ours.total_cmp(&y.asked.ours)).expect("a cell");
        let Asked { ours, judged, own, theirs } = cell.asked;
        let times = [ours, judged, own, theirs].map(digits).join(" | ");
        println!("| {} | {} | {times} | {} |", row.words, screens[cell.screen].name, two(own / theirs));
    }
}

/// Own work of a step beside that of a list.
fn walks(screens: &[Screen]) {
    println!(
        "| state | steps | judging, µs a step | own work, µs a step | own work of one list, µs | a step / a list |"
    );
    println!("|---|---|---|---|---|---|");
    for screen in screens {
        let walk = walked(screen);
        let times = [walk.judged, walk.own, walk.list].map(digits).join(" | ");
        println!("| {} | {} | {times} | {} |", screen.name, walk.steps, two(walk.own / walk.list));
    }
}

/// A time with as many decimals as it needs.
fn digits(time: f64) -> String {
    match time {
        t if t < 9.995 => format!("{t:.2}"),
        t if t < 99.95 => format!("{t:.1}"),
        t => format!("{t:.0}"),
    }
}

/// A ratio.
fn two(ratio: f64) -> String {
    format!("{ratio:.2}")
}
