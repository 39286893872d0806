//! What is printed, as tables in Markdown. The first number of a pair is the proved kernel's, the second the Rust
//! kernel's.

use crate::clock::Times;
use crate::limit::Ratio;

/// The aim (docs/PERFORMANCE.md): a ratio of at most 1.2 for every call at every size.
const AIM: f64 = 1.2;

/// A call's times on one book.
pub struct Line {
    pub name: &'static str,
    pub objects: usize,
    pub times: Times,
}

/// A call's bytes of stack.
pub struct Depth {
    pub name: &'static str,
    pub first: usize,
    pub second: usize,
}

impl Line {
    fn ratio(&self) -> f64 {
        self.times.first / self.times.second
    }
}

/// Every ratio of the table, named.
pub fn ratios(table: &[Vec<Line>]) -> Vec<Ratio> {
    let named = |line: &Line| format!("{}, at {} objects", line.name, line.objects);
    table.iter().flatten().map(|line| Ratio { name: named(line), ratio: line.ratio() }).collect()
}

/// A cell for each column, the first to the left, and a rule below the head.
fn print_head(columns: &[&str], widths: &[usize]) {
    let cells: Vec<String> = columns.iter().map(|column| column.to_string()).collect();
    print_row(&cells, widths);
    let rules: Vec<String> = widths.iter().map(|width| format!("{}:", "-".repeat(width - 1))).collect();
    println!("|{}|{}|", "-".repeat(widths[0] + 2), rules[1..].join("|"));
}

fn print_row(cells: &[String], widths: &[usize]) {
    let rest = cells[1..].iter().zip(&widths[1..]).map(|(cell, width)| format!("{:>1$}", cell, width));
    println!("| {:1$} |{2}|", cells[0], widths[0], rest.collect::<Vec<String>>().join("|"));
}

/// A row for each call: at each size both times and their ratio; then how many objects the books have.
pub fn print_times(sizes: &[usize], table: &[Vec<Line>]) {
    println!(
        "Nanoseconds a call (median): the proved kernel, the Rust kernel, their ratio (* above {}).",
        AIM
    );
    println!();
    let (mut columns, mut widths) = (vec!["call".to_string()], vec![15]);
    for size in sizes {
        columns.extend([size.to_string(), "Rust".to_string(), "ratio".to_string()]);
        widths.extend([6, 6, 6]);
    }
    columns.push("objects".to_string());
    widths.push(15);
    print_head(&columns.iter().map(|column| &column[..]).collect::<Vec<&str>>(), &widths);
    table.iter().for_each(|row| print_row(&times_of(row), &widths));
    let lines: Vec<&Line> = table.iter().flatten().collect();
    let above = lines.iter().filter(|line| line.ratio() > AIM).count();
    let largest = lines.iter().fold(0.0, |most: f64, line| most.max(line.ratio()));
    println!();
    println!("{} of {} ratios are above {}; the largest is {:.2}.", above, lines.len(), AIM, largest);
}

fn times_of(row: &[Line]) -> Vec<String> {
    let (mut cells, mut objects) = (vec![row[0].name.to_string()], Vec::new());
    for line in row {
        let mark = if line.ratio() > AIM { "*" } else { " " };
        cells.push(format!("{:.0}", line.times.first));
        cells.push(format!("{:.0}", line.times.second));
        cells.push(format!("{:.2}{}", line.ratio(), mark));
        objects.push(line.objects.to_string());
    }
    cells.push(objects.join(" "));
    cells
}

/// From the smallest book to the largest, and in the last step: how many times the objects, how many times the time,
/// and what each object more costs.
pub fn print_growth(table: &[Vec<Line>]) {
    println!();
    println!("Growth: how many times the objects and the time, and ns for each object more; from the smallest book");
    println!("to the largest, then from the second largest to the largest.");
    println!();
    let columns = ["objects", "proved", "Rust", "ns more", "Rust"];
    let head: Vec<&str> = ["call"].iter().chain(&columns).chain(&columns).copied().collect();
    let widths: Vec<usize> = [15].into_iter().chain([8; 10]).collect();
    print_head(&head, &widths);
    for row in table {
        let (low, middle, high) = (&row[0], &row[row.len() - 2], &row[row.len() - 1]);
        let mut cells = vec![low.name.to_string()];
        cells.extend(growth_of(low, high));
        cells.extend(growth_of(middle, high));
        print_row(&cells, &widths);
    }
}

fn growth_of(low: &Line, high: &Line) -> Vec<String> {
    let more = (high.objects - low.objects) as f64;
    let grown = [
        high.objects as f64 / low.objects as f64,
        high.times.first / low.times.first,
        high.times.second / low.times.second,
        (high.times.first - low.times.first) / more,
        (high.times.second - low.times.second) / more,
    ];
    grown.iter().map(|number| format!("{:.1}", number)).collect()
}

/// A row for each call.
pub fn print_stack(depths: &[Depth]) {
    println!();
    println!("Bytes of stack, with the host's wrapper: the proved kernel, the Rust kernel.");
    println!();
    let widths = [40, 8, 8];
    print_head(&["call", "proved", "Rust"], &widths);
    for depth in depths {
        print_row(&[depth.name.to_string(), depth.first.to_string(), depth.second.to_string()], &widths);
    }
}

/// Call 8 on containers each of which holds the next.
pub fn print_chains(longest: u64, bytes: [usize; 2], a_level: f64, fitting: usize) {
    println!();
    println!(
        "Call 8 on a chain of {} containers: {} bytes, {:.1} for each level;",
        longest, bytes[0], a_level
    );
    println!(
        "in the Rust kernel {} bytes. A chain of {} fits into {} bytes.",
        bytes[1],
        fitting,
        crate::limit::STACK
    );
}
