//! The benchmark: every call at four sizes of book, in the proved kernel and in an independent Rust kernel on the same
//! bytes, in one run; then how the times grow, and the stack that the calls use.

mod asking;
mod books;
mod cases;
mod clock;
mod limit;
mod report;
mod stack;

use asking::{proved, written_in_rust, Areas, Asked, Given};
use books::CALLER;
use cases::{cases, Case, SIZES};
use clock::Clock;
use flytewood_model::ask;
use flytewood_model::model::Call;
use report::{Depth, Line};
use std::env;
use std::io;
use std::process::ExitCode;

const SAMPLES: usize = 2_000;
const KERNELS: [Asked; 2] = [proved, written_in_rust];

/// Takes the number of samples, and the exit status is 1 if the kernel is too slow or takes too much stack. Or, for a
/// profiler, a kernel (proved or rust), a call as the table names it, a size and how often to make the call. Or, to try
/// the limits: a number of samples and `slowed` or `deepened`, for a kernel that is too slow or takes a page of stack
/// more; or `judge`, for ratios from the standard input.
fn main() -> ExitCode {
    let arguments: Vec<String> = env::args().skip(1).collect();
    let words: Vec<&str> = arguments.iter().map(|word| &word[..]).collect();
    let kept = match &words[..] {
        [] => measure(SAMPLES, KERNELS),
        ["judge"] => limit::is_kept(&limit::read(io::stdin().lock())),
        [samples] => measure(number(samples), KERNELS),
        [samples, "slowed"] => measure(number(samples), [slowed, written_in_rust]),
        [samples, "deepened"] => measure(number(samples), [deepened, written_in_rust]),
        [kernel, name, size, times] => repeat(kernel, name, number(size), number(times)),
        _ => panic!("unknown arguments: {:?}", words),
    };
    if kept {
        ExitCode::SUCCESS
    } else {
        ExitCode::FAILURE
    }
}

/// Prints all tables; whether the limits are kept.
fn measure(samples: usize, kernels: [Asked; 2]) -> bool {
    let table = table(&Clock::new(samples.max(1)), kernels);
    let depths = depths(kernels);
    report::print_times(&SIZES, &table);
    report::print_growth(&table);
    report::print_stack(&depths);
    print_chains(kernels);
    let fast = limit::is_kept(&report::ratios(&table));
    limit::is_shallow(&depths) && fast
}

/// A kernel that is too slow.
fn slowed(areas: &mut Areas, caller: u64, call: &Call, given: &mut Given) {
    (0..5).for_each(|_| proved(areas, caller, call, given));
}

/// A kernel that takes too much stack.
fn deepened(areas: &mut Areas, caller: u64, call: &Call, given: &mut Given) {
    let more = [0u8; 4096];
    proved(areas, caller, call, given);
    // SAFETY: it is a reference. A read that has to be made keeps the bytes on the stack.
    unsafe { std::ptr::read_volatile(&more) };
}

fn number(text: &str) -> usize {
    text.parse().expect("a number")
}

/// A row for each call, in which its lines stand by size.
fn table(clock: &Clock, kernels: [Asked; 2]) -> Vec<Vec<Line>> {
    let books: Vec<Vec<Case>> = SIZES.iter().map(|size| cases(*size)).collect();
    books.iter().flatten().for_each(same_in_both);
    let row = |row: usize| books.iter().map(|list| &list[row]).collect();
    (0..books[0].len()).map(|place| lines(clock, kernels, row(place))).collect()
}

fn lines(clock: &Clock, kernels: [Asked; 2], row: Vec<&Case>) -> Vec<Line> {
    let times = clock.race(&row, kernels);
    let line = |(case, times): (&&Case, _)| Line { name: case.name, objects: case.objects, times };
    row.iter().zip(times).map(line).collect()
}

/// What is timed is the same work: both kernels answer alike, and as the case says.
fn same_in_both(case: &Case) {
    let given = KERNELS.map(|kernel| {
        let mut given = Given::nothing();
        kernel(&mut case.areas.clone(), CALLER, &case.call, &mut given);
        given
    });
    assert_eq!(given[0], given[1], "{} at {} objects", case.name, case.objects);
    assert_eq!(given[0].reply.answer, case.answer, "{} at {} objects", case.name, case.objects);
}

/// The stack that each call uses on the largest book.
fn depths(kernels: [Asked; 2]) -> Vec<Depth> {
    let depth = |case: &Case| {
        let [first, second] = kernels.map(|kernel| stack::used(kernel, &case.areas, &case.call));
        Depth { name: case.name, first, second }
    };
    cases(SIZES[SIZES.len() - 1]).iter().map(depth).collect()
}

/// The stack of call 8 on a chain of containers, which it goes down by recursion.
fn cut_of_chain(kernel: Asked, length: u64) -> usize {
    let (areas, first) = books::chain(length);
    stack::used(kernel, &areas, &ask::unreference(books::ROOT, first))
}

fn print_chains(kernels: [Asked; 2]) {
    let longest = kernels.map(|kernel| cut_of_chain(kernel, books::LONGEST_CHAIN));
    let fits = |length: &u64| cut_of_chain(kernels[0], *length) <= limit::STACK;
    let a_level = (longest[0] - cut_of_chain(kernels[0], books::LONGEST_CHAIN - 100)) as f64 / 100.0;
    report::print_chains(
        books::LONGEST_CHAIN,
        longest,
        a_level,
        (1..=books::LONGEST_CHAIN).take_while(fits).count(),
    );
}

/// One kernel and one call, many times.
fn repeat(kernel: &str, name: &str, size: usize, times: usize) -> bool {
    let kernel = if kernel == "proved" { proved } else { written_in_rust };
    let made = cases(size);
    let case = made.iter().find(|case| case.name == name).expect("a call as the table names it");
    let (mut areas, mut given) = (Areas::new(), Given::nothing());
    for _ in 0..times {
        areas.copy_from(&case.areas);
        kernel(&mut areas, CALLER, &case.call, &mut given);
    }
    println!("{}, {} objects, {} times: answer {}", name, case.objects, times, given.reply.answer);
    true
}
