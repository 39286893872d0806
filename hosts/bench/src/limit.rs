//! When the kernel is too slow, or takes too much stack, to land. The aim is a ratio of 1.2 (report.rs); this is the limit
//! that the gate holds it to.

use crate::report::Depth;
use std::io::BufRead;

/// Machines are noisy, so a ratio counts only above this.
const LIMIT: f64 = 2.0;

/// So many ratios may be above it all the same. A call that is slow at every size has four.
const SPARED: usize = 3;

/// The stack of the smallest board that the kernel is to run on (W4), for every call, the host's wrapper included. A
/// deep tree cut by call 8 takes more.
pub const STACK: usize = 2048;

/// What was measured, in words, and its ratio.
pub struct Ratio {
    pub name: String,
    pub ratio: f64,
}

/// Names the ratios above the limit; whether they are few enough.
pub fn is_kept(ratios: &[Ratio]) -> bool {
    // What is no number is above it too.
    let slow: Vec<&Ratio> = ratios.iter().filter(|one| one.ratio.is_nan() || one.ratio > LIMIT).collect();
    let kept = !ratios.is_empty() && slow.len() <= SPARED;
    println!();
    println!(
        "{}: {} of {} ratios are above {:.1}, and {} may be.",
        if kept { "Limit kept" } else { "TOO SLOW" },
        slow.len(),
        ratios.len(),
        LIMIT,
        SPARED
    );
    slow.iter().for_each(|one| println!("    {}: {:.2}", one.name, one.ratio));
    kept
}

/// Names the calls that take more stack than there is; whether there is none.
pub fn is_shallow(depths: &[Depth]) -> bool {
    let deep: Vec<&Depth> = depths.iter().filter(|one| one.first > STACK).collect();
    let kept = !depths.is_empty() && deep.is_empty();
    println!(
        "{}: {} of {} calls take more than {} bytes of stack.",
        if kept { "Limit kept" } else { "TOO DEEP" },
        deep.len(),
        depths.len(),
        STACK
    );
    deep.iter().for_each(|one| println!("    {}: {}", one.name, one.first));
    kept
}

/// Ratios from a text, to try the limit on: a line for each, its number and then its name.
pub fn read(text: impl BufRead) -> Vec<Ratio> {
    let ratio = |line: String| {
        let (number, name) = line.split_once(' ').expect("a ratio and its name");
        Ratio { name: name.to_string(), ratio: number.parse().expect("a ratio") }
    };
    text.lines().map(|line| ratio(line.expect("a line"))).collect()
}
