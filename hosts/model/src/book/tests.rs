//! The layout's sums, the start book, and for each clause a smallest book that fails it alone.

use super::books::{all_books, start_book};
use super::script::{replay, Script, Write};
use super::*;
use crate::ask::CONTAINER_QUOTA_BEFORE_W7;
use crate::random::Random;

fn start() -> Vec<u8> {
    start_book(100)
}

fn with(mut book: Vec<u8>, writes: &[(Table, usize, u64)]) -> Vec<u8> {
    for (table, number, value) in writes {
        set(&mut book, *table, *number, *value);
    }
    book
}

/// The start book and a container or segment 102 in row 2, linked in the root.
fn start_and(kind: u64, quota: u64) -> Vec<u8> {
    let row = [(ID, 2, 102), (KIND, 2, kind), (QUOTA, 2, quota), (LABEL_DEFAULT, 2, 2)];
    let link = [(NEXT, 0, 103), (LINK_FROM, 1, 1), (LINK_TO, 1, 2)];
    with(with(start(), &row), &link)
}

fn fails_only(book: &[u8], name: &str) {
    let names: Vec<&str> = failing(book).into_iter().map(|i| CLAUSES[i].name).collect();
    assert_eq!(names, [name]);
    assert!(!sound(book));
}

#[test]
fn the_tables_follow_each_other_and_fill_the_book() {
    let mut end = 0;
    for table in TABLES.iter() {
        assert_eq!(table.offset, end, "{}", table.name);
        end = table.place(table.count);
    }
    assert_eq!(end, BOOK_LEN);
}

#[test]
fn numbers_have_their_lowest_byte_first() {
    let book = with(start(), &[(LEN, 1, 0x1234)]);
    assert_eq!(book[3_346..3_348], [0x34, 0x12]);
    assert_eq!(get(&book, LEN, 1), 0x1234);
    assert_eq!((KIND.largest(), LEN.largest(), ID.largest()), (255, 65_535, u64::MAX));
}

#[test]
fn the_start_book_is_sound() {
    assert!(sound(&start()));
    assert!(sound(&start_book(1)));
    assert!(sound(&start_book(2_305_843_009_213_693_949)));
}

#[test]
fn another_length_is_no_book() {
    let mut longer = start();
    longer.push(0);
    assert!(!sound(&longer) && !sound(&start()[..BOOK_LEN - 1]) && !sound(&[]));
}

#[test]
fn a_book_of_zeros_has_no_root() {
    fails_only(&[0; BOOK_LEN], "containers form a tree under one root of quota 256");
}

#[test]
fn unused_numbers_are_not_looked_at() {
    let mut book = start();
    for table in TABLES.iter().filter(|table| ![KIND, LINK_FROM, OWNER].contains(table)) {
        for number in 0..table.count {
            if !in_use(&book, *table, number) {
                set(&mut book, *table, number, table.largest());
            }
        }
    }
    assert!(sound(&book));
}

#[test]
fn fields_alone() {
    let name = "every field is in its range";
    fails_only(&with(start(), &[(MASK, 0, 16)]), name);
    fails_only(&with(start(), &[(ID, 1, 0)]), name);
    fails_only(&with(start(), &[(QUOTA, 1, 2)]), name);
    fails_only(&with(start(), &[(NEXT, 0, PAST_THE_END + 1)]), name);
    fails_only(&with(start(), &[(LINK_FROM, 1, 1), (LINK_TO, 1, 2)]), name);
    fails_only(&with(start(), &[(OWNER, 0, 2)]), name);
    fails_only(&with(start_and(SEGMENT, 1), &[(FIXED, 2, 2)]), name);
    fails_only(&with(start(), &[(KIND, 1, 5)]), name);
}

#[test]
fn ids_alone() {
    let name = "ids are distinct and below the next number";
    fails_only(&with(start(), &[(NEXT, 0, 101)]), name);
    fails_only(&with(start(), &[(ID, 1, 100)]), name);
}

#[test]
fn labels_alone() {
    let name = "labels are well formed against it";
    let root_word = |place, category, code| with(start(), &[(LABEL_WORDS, place, word(category, code))]);
    fails_only(&root_word(0, 5, LEVEL_1), name);
    fails_only(&root_word(0, 5, STAR), name);
    fails_only(&root_word(0, 5, HIGH_STAR), name);
    fails_only(&root_word(0, 0, LEVEL_3), name);
    fails_only(&root_word(0, 102, LEVEL_3), name);
    fails_only(&root_word(1, 5, LEVEL_3), name);
    fails_only(&with(start(), &[(LABEL_DEFAULT, 0, 0)]), name);
    assert!(sound(&root_word(0, 101, LEVEL_3)));
}

#[test]
fn star_stands_in_a_threads_label_and_not_in_its_clearance() {
    let thread = with(start(), &[(LABEL_WORDS, 8, word(5, STAR))]);
    assert!(sound(&thread));
    fails_only(&with(thread, &[(CLEAR_WORDS, 8, word(5, STAR))]), "labels are well formed against it");
}

#[test]
fn flow_alone() {
    let name = "thread and gate labels flow to their clearances";
    fails_only(&with(start(), &[(CLEAR_DEFAULT, 1, 1)]), name);
    fails_only(&with(start(), &[(LABEL_WORDS, 8, word(5, LEVEL_3))]), name);
    fails_only(&with(start(), &[(KIND, 1, GATE), (CLEAR_WORDS, 8, word(5, LEVEL_0))]), name);
}

#[test]
fn tree_alone() {
    let name = "containers form a tree under one root of quota 256";
    fails_only(&with(start(), &[(QUOTA, 0, 255)]), name);
    fails_only(&with(start_and(CONTAINER, 1), &[(LINK_FROM, 1, 0)]), name);
    let holder = [(ID, 3, 103), (KIND, 3, CONTAINER), (QUOTA, 3, 2), (LABEL_DEFAULT, 3, 2), (NEXT, 0, 104)];
    let twice = [(LINK_FROM, 2, 1), (LINK_TO, 2, 3), (LINK_FROM, 3, 4), (LINK_TO, 3, 2)];
    fails_only(&with(with(start_and(CONTAINER, 1), &holder), &twice), name);
}

#[test]
fn a_circle_is_no_tree_and_uses_too_much() {
    let circle = with(start_and(CONTAINER, 9), &[(LINK_FROM, 1, 3)]);
    let tree_and_use = [4, 7];
    assert_eq!(failing(&circle), tree_and_use);
}

#[test]
fn links_alone() {
    let name = "every other object has its link or links";
    fails_only(&with(start(), &[(LINK_FROM, 0, 0)]), name);
    let second = [(LINK_FROM, 2, 3), (LINK_TO, 2, 1)];
    fails_only(&with(start_and(CONTAINER, 2), &second), name);
    fails_only(&with(with(start_and(CONTAINER, 2), &second), &[(FIXED, 1, 1)]), name);
}

#[test]
fn twice_alone() {
    let twice = with(start_and(SEGMENT, 1), &[(FIXED, 2, 1), (LINK_FROM, 2, 1), (LINK_TO, 2, 2)]);
    fails_only(&twice, "no link occurs twice");
}

#[test]
fn use_alone() {
    let name = "use never exceeds quota";
    fails_only(&with(start_and(CONTAINER, 1), &[(LINK_FROM, 0, 3)]), name);
    fails_only(&start_and(CONTAINER, 255), name);
    assert!(sound(&start_and(CONTAINER, 254)));
    let long = with(start_and(SEGMENT, 1), &[(LEN, 2, 1), (OWNER, 7, 3)]);
    fails_only(&long, name);
    assert!(sound(&with(long, &[(QUOTA, 2, 2)])));
}

/// W7 changed what a create makes, not which books are sound. The container 102 is as one made with 0 before.
#[test]
fn a_container_from_before_w7_is_sound_and_has_16_units() {
    let holding = |units| {
        let row = [(ID, 3, 103), (KIND, 3, SEGMENT), (QUOTA, 3, units), (LABEL_DEFAULT, 3, 2)];
        let link = [(NEXT, 0, 104), (LINK_FROM, 2, 3), (LINK_TO, 2, 3)];
        with(with(start_and(CONTAINER, CONTAINER_QUOTA_BEFORE_W7), &row), &link)
    };
    assert!(sound(&start_and(CONTAINER, CONTAINER_QUOTA_BEFORE_W7)));
    assert!(sound(&holding(15)));
    fails_only(&holding(16), "use never exceeds quota");
}

#[test]
fn masks_alone() {
    let masks = |root, child| with(start_and(CONTAINER, 1), &[(MASK, 0, root), (MASK, 2, child)]);
    fails_only(&masks(1, 0), "a child's mask includes its parent's");
    fails_only(&masks(9, 6), "a child's mask includes its parent's");
    assert!(sound(&masks(9, 13)));
}

#[test]
fn blocks_alone() {
    let name = "each segment has exactly its blocks";
    let two = with(start_and(SEGMENT, 3), &[(LEN, 2, 65), (OWNER, 4, 3), (OWNER, 9, 3), (INDEX, 4, 1)]);
    assert!(sound(&two));
    fails_only(&with(two.clone(), &[(OWNER, 9, 0)]), name);
    fails_only(&with(two.clone(), &[(INDEX, 9, 1)]), name);
    fails_only(&with(two.clone(), &[(INDEX, 9, 2)]), name);
    fails_only(&with(two.clone(), &[(OWNER, 11, 3), (INDEX, 11, 1)]), name);
    fails_only(&with(two, &[(LEN, 2, 64)]), name);
    fails_only(&with(start_and(SEGMENT, 2), &[(LEN, 2, 1)]), name);
}

#[test]
fn every_book_to_start_from_is_sound() {
    let books = all_books(&mut Random::new(7));
    assert!(books.iter().all(|start| sound(&start.book)));
    let most = |table: Table| {
        let used = |book: &[u8]| (0..table.count).filter(|number| get(book, table, *number) != 0).count();
        books.iter().map(|start| used(&start.book)).max()
    };
    assert_eq!((most(KIND), most(LINK_FROM), most(OWNER)), (Some(256), Some(255), Some(254)));
}

#[test]
fn a_script_says_what_its_commands_say() {
    let mut script = Script::new();
    let kind = Write { table: KIND, number: 3, value: 1 };
    script.verdict();
    script.write(kind);
    script.verdict();
    script.clear();
    script.verdict();
    assert_eq!(script.commands, b"VW\x13\x08\0\0\x01\x01\0\0\0\0\0\0\0VZV");
    assert_eq!(script.lines(), "0 0\n1 0\n2 0\n");
    assert_eq!(replay(&script.commands), Some(vec![false; 3]));
    assert_eq!(replay(b"W\0"), None);
}
