//! What a hostile host may lend: wrong lengths, random books, damaged books, extreme numbers.

use crate::arguments::{numbers, output_len, slices};
use crate::ask::{ask, UNTOUCHED};
use crate::bench::{need, Bench, Checked, BAD_AREA};
use crate::guarded::Guarded;
use crate::mixture::{draw, EXTREMES};
use crate::run::{Run, Tally};
use crate::showcase;
use flytewood_kernel::{Kernel, AREA_LEN};
use flytewood_model::book::books::any_book;
use flytewood_model::book::*;
use flytewood_model::coverage::{count_one, Seen};
use flytewood_model::model::{Call, World, GRANTED, LAST_FIRST_NUMBER, MALFORMED};
use flytewood_model::random::Random;

/// What came of the damaged books.
#[derive(Default)]
pub struct Damage {
    pub seen: Seen,
    pub unsound: usize,
    pub still_sound: usize,
    /// How many of the books fail each clause of section 5 of docs/RULES.md, and how many fail it alone.
    pub failing: [usize; CLAUSE_COUNT],
    pub failing_alone: [usize; CLAUSE_COUNT],
}

/// The call must answer 1 and leave everything as it was lent.
fn refused_untouched(
    book: &[u8],
    area: &[u8],
    caller: u64,
    call: &Call,
    null: bool,
    seen: &mut Seen,
) -> Checked {
    let (mut lent_book, mut lent_area) = (Guarded::new(book), Guarded::new(area));
    let given = ask(&mut lent_book, &mut lent_area, caller, call, null)?;
    let told = |what: &str| format!("{} asks {:?} of bad areas: {}", caller, call, what);
    need(given.answer == BAD_AREA, || told(&format!("answer {}", given.answer)))?;
    need(given.value == 0 && given.place == 0, || told("a value or a place"))?;
    need(given.output == vec![UNTOUCHED; call.output_len()], || told("an output was written"))?;
    need(lent_book.bytes() == book && lent_area.bytes() == area, || told("an area was written"))?;
    count_one(seen, call.number(), given.answer);
    Ok(())
}

/// RULES 6.1: "An area's length is wrong, ..", with the sixteen calls that a right one would grant, and with
/// Start.
pub fn areas_of_wrong_length(seen: &mut Seen) -> Checked {
    let bench = showcase::bench()?;
    let books = [0, 1, 8, BOOK_LEN - 1, BOOK_LEN + 1, 65_536];
    let areas = [0, 1, 64, AREA_LEN - 64, AREA_LEN - 1, AREA_LEN + 1, 65_536];
    let mut lengths: Vec<(usize, usize)> = books.iter().map(|book| (*book, AREA_LEN)).collect();
    lengths.extend(areas.iter().map(|area| (BOOK_LEN, *area)));
    lengths.extend([(0, 0), (AREA_LEN, BOOK_LEN), (BOOK_LEN - 1, AREA_LEN + 1)].iter());
    for (book_len, area_len) in lengths {
        let (mut book, mut area) = (bench.book.bytes().to_vec(), bench.area.bytes().to_vec());
        book.resize(book_len, 0);
        area.resize(area_len, 0);
        for null in [false, true].iter() {
            for call in showcase::calls() {
                refused_untouched(&book, &area, showcase::CALLER, &call, *null, seen)?;
            }
            for first in [0, 1, 100, u64::MAX].iter() {
                started(&book, &area, *first, *null)?;
            }
        }
    }
    Ok(())
}

/// RULES 7.2: "It answers 1 if an area's length is wrong, and otherwise 4 if f is not in that range. It then
/// leaves both areas as lent."
fn started(book: &[u8], area: &[u8], first: u64, null: bool) -> Checked {
    let (mut lent_book, mut lent_area) = (Guarded::new(book), Guarded::new(area));
    let answer = {
        let kernel = Kernel::over(lent_book.bytes_mut(), lent_area.bytes_mut());
        let mut kernel = if null { kernel.with_null_for_empty() } else { kernel };
        kernel.start(first)
    };
    let expected = if book.len() != BOOK_LEN || area.len() != AREA_LEN {
        BAD_AREA
    } else if (1..=LAST_FIRST_NUMBER).contains(&first) {
        GRANTED
    } else {
        MALFORMED
    };
    let told = |what: &str| format!("start {} with {} and {} bytes: {}", first, book.len(), area.len(), what);
    need(answer == expected, || told(&format!("answer {}", answer)))?;
    need(lent_book.intact() && lent_area.intact(), || told("something outside was written"))?;
    let as_lent = lent_book.bytes() == book && lent_area.bytes() == area;
    need(answer == GRANTED || as_lent, || told("an area was written"))
}

/// Start over areas that hold anything, with first numbers at the edges of what it takes.
pub fn starts(random: &mut Random) -> Checked {
    let mut firsts = EXTREMES.to_vec();
    firsts.extend([LAST_FIRST_NUMBER - 1, LAST_FIRST_NUMBER, LAST_FIRST_NUMBER + 1].iter());
    for first in firsts {
        let book: Vec<u8> = (0..BOOK_LEN).map(|_| random.draw() as u8).collect();
        let area: Vec<u8> = (0..AREA_LEN).map(|_| random.draw() as u8).collect();
        started(&book, &area, first, false)?;
        if (1..=LAST_FIRST_NUMBER).contains(&first) {
            Bench::start(first, random.draw() as u8)?;
        }
    }
    Ok(())
}

/// One call on a copy of the bench, which the model judges as well.
fn tried(bench: &Bench, caller: u64, call: &Call, seen: &mut Seen) -> Result<u64, String> {
    let answer = bench.clone().step(caller, call)?.answer;
    count_one(seen, call.number(), answer);
    Ok(answer)
}

/// Each slice and each output of each call that was granted, of every wrong length: 4.
pub fn arguments_of_wrong_length(seen: &mut Seen) -> Checked {
    let bench = showcase::bench()?;
    for call in showcase::calls() {
        let granted = tried(&bench, showcase::CALLER, &call, seen)?;
        need(granted == GRANTED, || format!("the showcase counts on {:?}", call))?;
        for spoilt in with_wrong_lengths(&call) {
            let answer = tried(&bench, showcase::CALLER, &spoilt, seen)?;
            need(answer == MALFORMED, || format!("{:?} was answered {}", spoilt, answer))?;
        }
    }
    Ok(())
}

fn wrong_lengths(right: usize) -> Vec<usize> {
    let lengths = [0, 1, right / 2, right.max(1) - 1, right + 1, right + 8, 2 * right, 1000];
    lengths.iter().copied().filter(|length| *length != right).collect()
}

fn with_wrong_lengths(call: &Call) -> Vec<Call> {
    let mut spoilt = Vec::new();
    for i in 0..slices(&mut call.clone()).len() {
        let right = slices(&mut call.clone())[i].len();
        for length in wrong_lengths(right) {
            let mut one = call.clone();
            slices(&mut one)[i].resize(length, 0);
            spoilt.push(one);
        }
    }
    if let Some(right) = output_len(&mut call.clone()) {
        for length in wrong_lengths(*right as usize) {
            let mut one = call.clone();
            *output_len(&mut one).expect("an output") = length as u64;
            spoilt.push(one);
        }
    }
    spoilt
}

/// Each number of each call that was granted, the caller too, at every edge.
pub fn extreme_numbers(seen: &mut Seen) -> Checked {
    let bench = showcase::bench()?;
    let next = bench.world.next;
    let mut values = EXTREMES.to_vec();
    values.extend([next - 1, next, next + 1].iter());
    for call in showcase::calls() {
        for value in &values {
            tried(&bench, *value, &call, seen)?;
            for i in 0..numbers(&mut call.clone()).len() {
                let mut one = call.clone();
                *numbers(&mut one)[i] = *value;
                tried(&bench, showcase::CALLER, &one, seen)?;
            }
        }
    }
    signed_extremes(&bench, seen)?;
    sums_that_would_wrap(&bench, &values, seen)
}

fn signed_extremes(bench: &Bench, seen: &mut Seen) -> Checked {
    let edges =
        [i64::MIN, i64::MIN + 1, -(1 << 32), -257, -256, -41, -40, -39, -1, 0, 1, 206, 207, 208, 256, 257];
    for n in edges.iter().chain([1 << 32, i64::MAX - 1, i64::MAX].iter()) {
        for o in [showcase::CONTAINER, showcase::SEGMENT].iter() {
            let d = if *o == showcase::SEGMENT { showcase::CONTAINER } else { 100 };
            tried(bench, showcase::CALLER, &Call::MoveQuota { d, o: *o, n: *n }, seen)?;
        }
    }
    Ok(())
}

/// RULES 8.12: ".. from + count, reckoned without overflow, is above 64.", and with it 64k.
fn sums_that_would_wrap(bench: &Bench, values: &[u64], seen: &mut Seen) -> Checked {
    let (d, s) = (showcase::CONTAINER, showcase::SEGMENT);
    for from in values {
        for count in values.iter().chain([from.wrapping_neg(), 64u64.wrapping_sub(*from)].iter()) {
            for k in [0, 253, 1 << 58].iter() {
                let (k, from, count) = (*k, *from, *count);
                tried(bench, showcase::CALLER, &Call::Read { d, s, k, from, count }, seen)?;
                let bytes = vec![3; count.min(70) as usize];
                tried(bench, showcase::CALLER, &Call::Write { d, s, k, from, count, bytes }, seen)?;
            }
        }
    }
    Ok(())
}

/// A book of any bytes: whatever section 5 of docs/RULES.md says of it decides.
fn tried_book(book: &[u8], area: &[u8], world: &World, random: &mut Random, damage: &mut Damage) -> Checked {
    let failing = failing(book);
    for clause in &failing {
        damage.failing[*clause] += 1;
        damage.failing_alone[*clause] += usize::from(failing.len() == 1);
    }
    if failing.is_empty() {
        damage.still_sound += 1;
        let mut bench = Bench::over(book, area);
        let (caller, call) = draw(random, &bench.world);
        let outcome = bench.step(caller, &call)?;
        count_one(&mut damage.seen, call.number(), outcome.answer);
        return bench.is_sound();
    }
    damage.unsound += 1;
    let (caller, call) = draw(random, world);
    refused_untouched(book, area, caller, &call, random.chance(50), &mut damage.seen)
}

/// All bytes random; random but for a few tables; all alike.
pub fn books_of_random_bytes(random: &mut Random, count: usize, damage: &mut Damage) -> Checked {
    let bench = showcase::bench()?;
    let area = bench.area.bytes().to_vec();
    for byte in [0, 1, 4, 255].iter() {
        tried_book(&vec![*byte; BOOK_LEN], &area, &bench.world, random, damage)?;
    }
    for i in 0..count {
        let mut book = bench.book.bytes().to_vec();
        let all = i % 3 == 0;
        for table in TABLES.iter() {
            if all || random.chance(10) {
                let end = table.place(table.count);
                book[table.offset..end].iter_mut().for_each(|byte| *byte = random.draw() as u8);
            }
        }
        tried_book(&book, &area, &bench.world, random, damage)?;
    }
    Ok(())
}

/// Single bits of a good book turned, mostly in numbers that are in use; and single numbers changed.
pub fn damaged_books(bench: &Bench, random: &mut Random, count: usize, damage: &mut Damage) -> Checked {
    let (book, area) = (bench.book.bytes(), bench.area.bytes());
    let in_use = numbers_in_use(book);
    for i in 0..count {
        let mut damaged = book.to_vec();
        if i % 4 == 3 {
            change_a_number(&mut damaged, &in_use, random);
        } else {
            turn_a_bit(&mut damaged, &in_use, random);
        }
        let what = |error: String| format!("a damaged book ({}): {}", differing(book, &damaged), error);
        tried_book(&damaged, area, &bench.world, random, damage).map_err(what)?;
    }
    Ok(())
}

fn differing(old: &[u8], new: &[u8]) -> String {
    let places: Vec<usize> = (0..old.len()).filter(|place| old[*place] != new[*place]).collect();
    format!("bytes {:?} were {:?}", places, places.iter().map(|place| old[*place]).collect::<Vec<u8>>())
}

fn numbers_in_use(book: &[u8]) -> Vec<Vec<(Table, usize)>> {
    let of =
        |table: &Table| (0..table.count).filter(|i| in_use(book, *table, *i)).map(|i| (*table, i)).collect();
    TABLES.iter().map(of).filter(|numbers: &Vec<(Table, usize)>| !numbers.is_empty()).collect()
}

/// A table first, so that the small ones are not drowned by the large.
fn some_number(in_use: &[Vec<(Table, usize)>], random: &mut Random) -> (Table, usize) {
    let of_one_table = &in_use[random.below(in_use.len() as u64) as usize];
    random.pick(of_one_table)
}

fn turn_a_bit(book: &mut [u8], in_use: &[Vec<(Table, usize)>], random: &mut Random) {
    let (table, number) = some_number(in_use, random);
    let bit = random.below(8 * table.width as u64) as usize;
    let place = if random.chance(80) {
        table.place(number) + bit / 8
    } else {
        random.below(book.len() as u64) as usize
    };
    book[place] ^= 1 << (bit % 8);
}

/// To an extreme, to a neighbour, or to what another number of its table says.
fn change_a_number(book: &mut [u8], in_use: &[Vec<(Table, usize)>], random: &mut Random) {
    let (table, number) = some_number(in_use, random);
    let old = get(book, table, number);
    let new = match random.below(4) {
        0 => random.pick(&EXTREMES),
        1 => old.wrapping_add(1),
        2 => old.wrapping_sub(1),
        _ => get(book, table, random.below(table.count as u64) as usize),
    };
    set(book, table, number, new);
}

/// Some calls over a sound book that the kernel never wrote, with any bytes in its area and in its unused numbers.
pub fn book_from_elsewhere(seed: u64, calls: usize, tally: &mut Tally) -> Checked {
    let mut random = Random::new(seed ^ 0x656C_7365);
    let book = any_book(&mut random);
    let area: Vec<u8> = (0..AREA_LEN).map(|_| random.draw() as u8).collect();
    need(sound(&book), || "a made book is not sound".to_string())?;
    let told = |error: String| format!("book {} from elsewhere: {}", seed, error);
    Run::over(Bench::over(&book, &area), seed, calls, tally).finish().map_err(told)
}
