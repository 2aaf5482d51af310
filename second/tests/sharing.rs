//! The test for shared blocks: tables of regions and both engines, on volumes laid by hand and on generated ones.

mod common;

use common::*;
use second::generator;
use second::index::{DELETED_DIRECTORY, DELETED_FILE, DIRECTORY, END_AT, FILE, IDENTIFIER, LENGTH_AT, MARKER};
use second::index::{START_AT, UNUSABLE};
use second::refusal::{Counts, OF_REGIONS};
use second::script::{digest, lent_table, table_bytes, Session};
use second::superblock::{self, Geometry, MOST_INDEX};
use second::{create_directory, create_file, delete_keep, find, open, reclaim, restore};
use second::{index, regions, selftest, sharing, sharing_plain, Edition, TableRegion, Tabled};
use std::collections::BTreeMap;

const BLOCK: u64 = 256;
const RESERVED: u64 = 2;
/// The block past the data area.
const PAST: u64 = 42;
/// A wide table, as its last places are to be kept.
const MANY: usize = 60;

/// An entry of one slot: its kind, its first block and the one past its last, and its length.
#[derive(Clone, Copy, Debug)]
struct Item {
    kind: u8,
    start: u64,
    end: u64,
    length: u64,
}

const fn item(kind: u8, start: u64, end: u64) -> Item {
    Item { kind, start, end, length: 0 }
}

const fn file(start: u64, end: u64) -> Item {
    item(FILE, start, end)
}

const fn unusable(start: u64, end: u64) -> Item {
    item(UNUSABLE, start, end)
}

const fn deleted(start: u64, end: u64) -> Item {
    item(DELETED_FILE, start, end)
}

const EMPTY: Item = item(FILE, 0, 0);

impl Item {
    fn numbers(&self, edition: Edition) -> [u64; 3] {
        let end = if self.end == 0 { 0 } else { edition.stored_end(self.end) };
        [self.start, end, self.length]
    }
}

/// Where an entry of this kind has its numbers.
fn fields(edition: Edition, kind: u8) -> [usize; 3] {
    [START_AT, END_AT, LENGTH_AT].map(|place| if kind == UNUSABLE { place } else { edition.entry_field(place) })
}

fn slot_offset(image: &[u8], edition: Edition, slot: usize) -> usize {
    image.len() - number(image, edition.super_field(superblock::INDEX)) as usize + 64 * slot
}

/// Other numbers for the entry at a slot, the end as it is stored, and a right sum.
fn renumber(image: &mut [u8], edition: Edition, slot: usize, numbers: [u64; 3]) {
    let at = slot_offset(image, edition, slot);
    for (place, number) in fields(edition, image[at]).into_iter().zip(numbers) {
        put(image, at + place, &number.to_le_bytes());
    }
    edition.seal(&mut image[at..at + 64]);
}

/// A volume with just these entries, from slot 1 on.
fn volume_over(edition: Edition, data: u64, items: &[Item]) -> Vec<u8> {
    let index = 64 * (items.len() as u64 + 2);
    let total = RESERVED + data + index.div_ceil(BLOCK);
    let geometry = Geometry { edition, image: total * BLOCK, block: BLOCK, total, reserved: RESERVED, data, index };
    assert!(geometry.is_good());
    let mut image = vec![0; geometry.image as usize];
    superblock::write(&mut image, &geometry, 7);
    put(&mut image, geometry.slot_offset(0), &edition.bare_slot(MARKER));
    put(&mut image, geometry.slot_offset(geometry.slots() - 1), &edition.bare_slot(IDENTIFIER));
    for (slot, item) in (1..).zip(items) {
        let at = slot_offset(&image, edition, slot);
        image[at] = item.kind;
        let name = index::name_at(edition, item.kind).map_or(63, |name| at + name);
        put(&mut image, name, format!("n{slot}").as_bytes());
        match item.kind {
            FILE | DELETED_FILE | UNUSABLE => renumber(&mut image, edition, slot, item.numbers(edition)),
            _ => edition.seal(&mut image[at..at + 64]),
        }
    }
    image
}

fn volume(edition: Edition, items: &[Item]) -> Vec<u8> {
    volume_over(edition, PAST - RESERVED, items)
}

/// The answer for a table of so many places, and the places in use. All others kept what they had, and without a table
/// the answer is the same.
fn asked(image: &[u8], places: usize) -> (u8, Vec<(u64, u64)>) {
    let before = lent_table(places, 9);
    let mut table = before.clone();
    let Tabled { answer, regions } = regions(image, &mut table);
    let used = regions as usize;
    assert_eq!(table[used..], before[used..]);
    assert!([0, 7].contains(&answer) || used == 0);
    let engines = [sharing(image).refusal, sharing_plain(image).refusal];
    assert_eq!(engines[0], engines[1]);
    assert!(if answer == 18 { [0, 7].contains(&engines[0]) } else { engines[0] == answer });
    (answer, table[..used].iter().map(|place| (place.start, place.end)).collect())
}

fn of_items(edition: Edition, items: &[Item]) -> (u8, Vec<(u64, u64)>) {
    asked(&volume(edition, items), MANY)
}

const NONE: Vec<(u64, u64)> = Vec::new();

#[test]
fn tables_of_every_length() {
    for edition in Edition::ALL {
        let image = volume(edition, &[file(9, 12), EMPTY, unusable(2, 3), item(DIRECTORY, 0, 0), file(4, 5)]);
        let ordered = vec![(2, 3), (4, 5), (9, 12)];
        for places in [3, 4, 5, 16, 17, 4_096, 5_000] {
            assert_eq!(asked(&image, places), (0, ordered.clone()), "{places}");
        }
        for places in [0, 1, 2] {
            assert_eq!(asked(&image, places), (18, NONE), "{places}");
        }
    }
}

#[test]
fn no_region_needs_no_place() {
    for edition in Edition::ALL {
        let none = [&[][..], &[EMPTY, item(DIRECTORY, 0, 0), item(DELETED_DIRECTORY, 0, 0), item(DELETED_FILE, 0, 0)]];
        for items in none {
            for places in [0, 1, MANY] {
                assert_eq!(asked(&volume(edition, items), places), (0, NONE));
            }
        }
    }
}

#[test]
fn touching_is_no_sharing() {
    for edition in Edition::ALL {
        for (low, high) in [(FILE, FILE), (FILE, UNUSABLE), (UNUSABLE, FILE), (UNUSABLE, UNUSABLE)] {
            let pair = |end, start| [item(high, start, 20), item(low, 5, end)];
            assert_eq!(of_items(edition, &pair(10, 10)), (0, vec![(5, 10), (10, 20)]));
            assert_eq!(of_items(edition, &pair(11, 10)), (7, vec![(5, 11), (10, 20)]));
            assert_eq!(of_items(edition, &pair(10, 9)), (7, vec![(5, 10), (9, 20)]));
            assert_eq!(of_items(edition, &pair(10, 11)), (0, vec![(5, 10), (11, 20)]));
        }
        let every_block: Vec<Item> = (RESERVED..PAST).map(|block| unusable(block, block + 1)).rev().collect();
        let ordered = (RESERVED..PAST).map(|block| (block, block + 1)).collect();
        assert_eq!(of_items(edition, &every_block), (0, ordered));
    }
}

#[test]
fn ordered_after_a_no() {
    for edition in Edition::ALL {
        for (items, ordered) in [
            (vec![file(5, 9), file(5, 9)], vec![(5, 9), (5, 9)]),
            (vec![file(5, 9), unusable(5, 6), file(5, 7), file(5, 8)], vec![(5, 6), (5, 7), (5, 8), (5, 9)]),
            (vec![file(40, 42), file(2, 42), unusable(2, 3)], vec![(2, 3), (2, 42), (40, 42)]),
            (vec![file(30, 31), file(20, 21), file(10, 41), file(2, 3)], vec![(2, 3), (10, 41), (20, 21), (30, 31)]),
            (vec![file(9, 20), unusable(8, 20), file(7, 20)], vec![(7, 20), (8, 20), (9, 20)]),
        ] {
            assert_eq!(of_items(edition, &items), (7, ordered.clone()));
            let image = volume(edition, &items);
            assert_eq!(asked(&image, items.len()), (7, ordered));
            assert_eq!(asked(&image, items.len() - 1), (18, NONE));
            assert_eq!(opens(&image), 7);
        }
    }
}

#[test]
fn deleted_files_by_edition() {
    let items = [deleted(4, 8), file(7, 9)];
    assert_eq!(of_items(Edition::V1_0, &items), (7, vec![(4, 8), (7, 9)]));
    assert_eq!(of_items(Edition::V1_10, &items), (0, vec![(7, 9)]));
    for edition in Edition::ALL {
        let mut image = vec![0; 65_536];
        second::format(&mut image, edition.version().into(), 512, 2, b"", 0);
        for (path, length) in [(b"a", 1_000), (b"b", 512), (b"c", 1)] {
            assert_eq!(create_file(&mut image, path, 0, &vec![1; length]).refusal, 0);
        }
        assert_eq!(create_directory(&mut image, b"d", 0).refusal, 0);
        let all = vec![(2, 4), (4, 5), (5, 6)];
        let left = vec![(2, 4), (5, 6)];
        assert_eq!(asked(&image, 3), (0, all.clone()));
        assert_eq!(delete_keep(&mut image, b"b", 0).refusal, 0);
        let kept = edition.keeps_deleted();
        assert_eq!(asked(&image, 3), (0, if kept { all.clone() } else { left.clone() }));
        assert_eq!(asked(&image, 2), if kept { (18, NONE) } else { (0, left.clone()) });
        if restore(&mut image, b"b", 0).refusal == 0 {
            assert_eq!(asked(&image, 3), (0, all));
            assert_eq!(delete_keep(&mut image, b"b", 0).refusal, 0);
        }
        assert_eq!(reclaim(&mut image, 0).refusal, 0);
        assert_eq!(asked(&image, 2), (0, left));
    }
}

#[test]
fn ends_are_past_the_region() {
    for (edition, stored) in [(Edition::V1_0, 7), (Edition::V1_10, 6)] {
        let image = volume(edition, &[file(4, 7), unusable(8, 9)]);
        assert_eq!(find(&image, b"n1").end, stored);
        assert_eq!(asked(&image, 2), (0, vec![(4, 7), (8, 9)]));
    }
}

/// Numbers, the end as it is stored, that are not good for a file from block 8 up to 12 in either edition.
fn bad_numbers(edition: Edition) -> Vec<[u64; 3]> {
    let last = |end| edition.stored_end(end);
    let high = 1 << 63;
    vec![
        [RESERVED - 1, last(12), 0],
        [0, last(12), 0],
        [8, last(PAST + 1), 0],
        [PAST, last(PAST + 1), 0],
        [8, last(8), 0],
        [PAST, last(PAST), 0],
        [9, last(8), 0],
        [12, last(8), 0],
        [8, 0, 0],
        [8, u64::MAX, 0],
        [u64::MAX, u64::MAX, 0],
        [u64::MAX, 0, 0],
        [8 | high, last(12) | high, 0],
        [8, last(12) | 1 << 32, 0],
        [8 | 1 << 32, last(12), 0],
    ]
}

#[test]
fn bounds_of_a_region() {
    for edition in Edition::ALL {
        for kind in [FILE, UNUSABLE, DELETED_FILE] {
            let image = volume(edition, &[file(2, 4), unusable(20, 30), item(kind, 8, 12), file(30, 31)]);
            let held = if kind == DELETED_FILE && !edition.keeps_deleted() { vec![] } else { vec![(8, 12)] };
            let good = [vec![(2, 4)], held.clone(), vec![(20, 30), (30, 31)]].concat();
            assert_eq!(asked(&image, MANY), (0, good.clone()));
            for numbers in bad_numbers(edition) {
                let mut image = image.clone();
                renumber(&mut image, edition, 3, numbers);
                if held.is_empty() {
                    assert_eq!(asked(&image, MANY), (0, good.clone()), "{numbers:?}");
                    continue;
                }
                for places in [0, 1, 4, MANY] {
                    assert_eq!(asked(&image, places), (7, NONE), "{edition:?} {kind:#x} {numbers:?}");
                }
            }
        }
    }
}

/// A bound is judged before shared blocks, which would leave the table ordered.
#[test]
fn a_bad_bound_among_shared_blocks() {
    for edition in Edition::ALL {
        let mut image = volume(edition, &[file(5, 9), file(5, 9), file(12, 14)]);
        assert_eq!(asked(&image, 3).0, 7);
        renumber(&mut image, edition, 3, [12, edition.stored_end(12), 0]);
        for places in [0, 1, 2, 3, MANY] {
            assert_eq!(asked(&image, places), (7, NONE));
        }
    }
}

#[test]
fn bounds_that_are_just_good() {
    for edition in Edition::ALL {
        for kind in [FILE, UNUSABLE] {
            for (start, end) in [(RESERVED, PAST), (RESERVED, RESERVED + 1), (PAST - 1, PAST)] {
                assert_eq!(of_items(edition, &[item(kind, start, end)]), (0, vec![(start, end)]));
            }
        }
    }
}

#[test]
fn lengths_that_fit() {
    for edition in Edition::ALL {
        let with = |kind, start, end, length| of_items(edition, &[Item { kind, start, end, length }, file(30, 31)]);
        let good = (0, vec![(8, 12), (30, 31)]);
        for length in [0, 1, 3 * BLOCK, 4 * BLOCK] {
            assert_eq!(with(FILE, 8, 12, length), good);
        }
        for length in [4 * BLOCK + 1, 5 * BLOCK, 1 << 32, u64::MAX, u64::MAX - 4 * BLOCK] {
            assert_eq!(with(FILE, 8, 12, length), (7, NONE));
            // What an unusable entry has there is no length.
            assert_eq!(with(UNUSABLE, 8, 12, length), good);
        }
        assert_eq!(with(FILE, 0, 0, 1), (7, NONE));
        assert_eq!(with(FILE, 0, 0, 0), (0, vec![(30, 31)]));
        assert_eq!(with(UNUSABLE, 0, 0, 0), (7, NONE));
    }
    assert_eq!(of_items(Edition::V1_0, &[Item { length: 4 * BLOCK + 1, ..deleted(8, 12) }]), (7, NONE));
}

#[test]
fn paths_are_not_judged() {
    for edition in Edition::ALL {
        for path in [&b"n1\0"[..], b"d/x\0"] {
            let mut image = volume(edition, &[file(5, 6), file(3, 4)]);
            let at = slot_offset(&image, edition, 2);
            put(&mut image, at + index::name_at(edition, FILE).unwrap(), path);
            edition.seal(&mut image[at..at + 64]);
            assert_eq!(opens(&image), 8);
            assert_eq!(asked(&image, 2), (0, vec![(3, 4), (5, 6)]));
            assert_eq!(asked(&image, 1), (18, NONE));
        }
    }
}

/// Images with these refusals, one each; where it is not 1, the regions share a block besides, or one has a bad bound.
fn refused_images(edition: Edition) -> Vec<(u8, Vec<u8>)> {
    let shared = volume(edition, &[file(5, 9), file(8, 12)]);
    let mut unbounded = shared.clone();
    renumber(&mut unbounded, edition, 2, [12, 9, 0]);
    let field = |place| edition.super_field(place);
    let mut images = vec![(1, Vec::new()), (1, vec![0; 511]), (1, shared[..511].to_vec())];
    for image in [shared, unbounded] {
        let with = |at: usize, byte: u8| {
            let mut image = image.clone();
            image[at] = byte;
            image[field(superblock::CHECKSUM)] = superblock::checksum(&image, edition);
            image
        };
        let mut wrong = image.clone();
        wrong[field(superblock::CHECKSUM)] ^= 1;
        images.extend([
            (2, with(field(superblock::MAGIC), b's')),
            (3, with(field(superblock::VERSION), 0x0F)),
            (4, wrong),
            (5, with(field(superblock::BLOCK_SIZE), 6)),
            (6, with(slot_offset(&image, edition, 1), 0x02)),
            (6, with(image.len() - 64, 0x10)),
        ]);
    }
    images
}

#[test]
fn lower_numbers_come_first() {
    for edition in Edition::ALL {
        for (refusal, image) in refused_images(edition) {
            for places in [0, 1, MANY] {
                assert_eq!(asked(&image, places), (refusal, NONE));
            }
            assert_eq!(opens(&image), refusal);
        }
    }
}

#[test]
fn as_many_as_an_index_holds() {
    let most = MOST_INDEX / 64 - 2;
    let end = RESERVED + most;
    for edition in Edition::ALL {
        let mut items: Vec<Item> = (RESERVED..end).rev().map(|block| unusable(block, block + 1)).collect();
        let image = volume_over(edition, most, &items);
        let ordered: Vec<(u64, u64)> = (RESERVED..end).map(|block| (block, block + 1)).collect();
        for places in [4_094, 4_095, 4_096, 5_000] {
            assert_eq!(asked(&image, places), (0, ordered.clone()));
        }
        assert_eq!(asked(&image, 4_093), (18, NONE));
        // Only the last two share a block.
        items[1].end += 1;
        let (answer, shared) = asked(&volume_over(edition, most, &items), 4_094);
        assert_eq!((answer, shared[4_092]), (7, (end - 2, end)));
    }
}

/// Runs a script and gives the lines it prints, without the digest of the image.
fn printed(script: &str) -> Vec<String> {
    let mut session = Session::default();
    let lines = script.lines().filter_map(|line| session.execute(line).unwrap());
    lines.map(|line| line.split(" img=").next().unwrap_or_default().to_string()).collect()
}

fn words(table: &[TableRegion]) -> String {
    table.iter().map(|place| format!(" {}-{}", place.start, place.end)).collect()
}

#[test]
fn lines_are_as_described() {
    let fill: Vec<u8> = second::xorshift::fill(32, 3);
    let [start, end] = [16, 24].map(|at| number(&fill, at));
    let held = TableRegion { start: 1, end: 2 };
    let mut long = lent_table(17, 4);
    long[0] = held;
    let mut shown = lent_table(16, 4);
    shown[0] = held;
    let script = "regions = 3\nregions 1 3\nsharing\nimage 8192\nformat 16 512 1 5445 -5\nmkfile 61 9 616263\n\
                  regions = 3\nregions =+1 3\nregions =-1 3\nregions =-9 3\nregions 16 4\nregions 17 4\nsharing\n\
                  history\n";
    let expected = [
        "regions 1 0 0".to_string(),
        format!("regions 1 0 1{}", words(&lent_table(1, 3))),
        "sharing 1 1".to_string(),
        "format 0".to_string(),
        "mkfile 0".to_string(),
        "regions 0 1 1 1-2".to_string(),
        format!("regions 0 1 2 1-2 {start}-{end}"),
        "regions 18 0 0".to_string(),
        "regions 18 0 0".to_string(),
        format!("regions 0 1 16{}", words(&shown)),
        format!("regions 0 1 17{}{} {:016x}", words(&long[..4]), words(&long[13..]), digest(&table_bytes(&long))),
        "sharing 0 0".to_string(),
        "history ok".to_string(),
    ];
    assert_eq!(printed(script), expected);
    assert_eq!(table_bytes(&lent_table(2, 3)), fill);
}

/// Neither line changes anything but the count of calls, and none of the numbers that other calls go by.
#[test]
fn lines_leave_all_else() {
    let mut session = Session::default();
    for line in ["image 8192", "format 16 512 1 5445 -5", "mkfile 61 9 616263", "find 62"] {
        session.execute(line).unwrap();
    }
    let (image, report, met) = (session.image().to_vec(), *session.report(), session.met);
    let line = session.execute("regions =+2 1").unwrap().unwrap();
    assert!(line.ends_with(&format!(" img={:016x}", digest(&image))));
    session.execute("regions 0 1").unwrap();
    session.execute("sharing").unwrap();
    assert_eq!((session.calls, session.last, session.met), (6, 11, met));
    assert!(session.image() == image && *session.report() == report);
    let [tables, engines] = [session.answers("regions"), session.answers("sharing")];
    assert_eq!((tables[0], tables[18], engines[0]), (1, 1, 1));
    assert_eq!(session.answers_in(Edition::V1_0).iter().sum::<u64>(), 2);
    assert_eq!(session.execute("history").unwrap().unwrap(), "history ok");
}

#[test]
fn lines_that_cannot_be_read() {
    for line in [
        "regions",
        "regions 1",
        "regions =",
        "regions 5001 1",
        "regions =+5001 1",
        "regions =-5001 1",
        "regions =5 1",
        "regions =+ 1",
        "regions -1 1",
        "regions x 1",
        "regions = x",
        "regions = -1",
        "regions = 1 2",
        "sharing 1",
    ] {
        assert!(Session::default().execute(line).is_err(), "{line}");
    }
    for line in ["regions 5000 0", "regions =+5000 18446744073709551615", "regions =-5000 1", "sharing"] {
        assert!(Session::default().execute(line).is_ok(), "{line}");
    }
}

/// Runs scripts of a family and shows each line that asks for regions, with the image and what was printed.
fn each_line(kind: Option<&str>, seeds: u64, calls: u64, mut show: impl FnMut(&str, &[u8], &str)) -> Vec<Session> {
    let run = |seed| {
        let mut session = Session::without_digests();
        for line in generator::script(seed, calls, kind).unwrap_or_default().lines() {
            let text = session.execute(line).unwrap().unwrap_or_default();
            if line.starts_with("regions ") || line == "sharing" {
                show(line, session.image(), &text);
            }
        }
        session
    };
    (1..=seeds).map(run).collect()
}

fn answers(sessions: &[Session], word: &str, edition: Option<Edition>) -> Counts {
    let mut sums = Counts::default();
    let met = sessions.iter().flat_map(Session::by_call).filter(|(called, _)| *called == &(word.to_string(), edition));
    met.for_each(|(_, counts)| sums.iter_mut().zip(counts).for_each(|(sum, count)| *sum += count));
    sums
}

#[test]
fn generated_answers_of_every_sort() {
    let sessions = each_line(Some("regions"), 6, 4_000, |_, _, _| {});
    for edition in Edition::ALL {
        let counts = answers(&sessions, "regions", Some(edition));
        println!("{edition:?}\n{}", selftest::region_table(&counts));
        for (number, met) in (0..).zip(counts) {
            // With the magic there 2 is no answer.
            let least = if [0, 7, 18].contains(&number) { 200 } else { 2 };
            let expected = OF_REGIONS.contains(&number) && number != 2;
            assert!(if expected { met > least } else { met == 0 }, "{edition:?} {number}: {counts:?}");
        }
        let engines = answers(&sessions, "sharing", Some(edition));
        assert!(engines[0] > 50 && engines[6] > 5 && engines[7] > 50 && engines[18] == 0, "{engines:?}");
    }
    let none = answers(&sessions, "regions", None);
    assert!(none[1] > 2 && none[2] > 2 && none.iter().sum::<u64>() == none[1] + none[2], "{none:?}");
}

/// What the blocks themselves say: by how many regions each is held.
fn holders(table: &[(u64, u64)]) -> BTreeMap<u64, u64> {
    let mut holders = BTreeMap::new();
    table.iter().flat_map(|(start, end)| *start..*end).for_each(|block| *holders.entry(block).or_default() += 1);
    holders
}

/// Answers against what `open` and the blocks say.
#[test]
fn generated_answers_hold() {
    let mut met = [0; 4];
    let mut look = |_: &str, image: &[u8], _: &str| {
        let mut table = vec![TableRegion::default(); 4_094];
        let Tabled { answer, regions: count } = regions(image, &mut table);
        let opened = open(image, &mut [0; 51]).refusal;
        assert_eq!(answer, if opened == 8 { 0 } else { opened });
        assert_eq!([sharing(image).refusal, sharing_plain(image).refusal], [answer; 2]);
        let table: Vec<(u64, u64)> = table[..count as usize].iter().map(|place| (place.start, place.end)).collect();
        assert!(table.iter().all(|(start, end)| start < end) && table.is_sorted());
        let shared = holders(&table).values().any(|count| *count > 1);
        assert_eq!(shared, answer == 7 && count > 0);
        let which = [opened == 8, answer == 0, answer == 7 && count > 0, answer == 7 && count == 0];
        met.iter_mut().zip(which).for_each(|(sum, holds)| *sum += u64::from(holds));
    };
    each_line(None, 2, 6_000, &mut look);
    each_line(Some("regions"), 2, 3_000, &mut look);
    assert!(met.iter().all(|count| *count > 5), "{met:?}");
}

/// A volume that has been judged up to its regions one by one.
struct Gathered {
    /// In slot order, and in their own.
    slots: Vec<(u64, u64)>,
    ordered: Vec<(u64, u64)>,
    /// Blocks that are in more than one of them.
    shared: u64,
    kinds: Vec<u8>,
    geometry: Geometry,
    opened: u8,
}

fn gathered(image: &[u8]) -> Option<Gathered> {
    let geometry = superblock::judge(image).ok()?.geometry;
    let entries = index::walk(image, &geometry).ok()?.entries;
    let slots = second::regions::gather(&entries, &geometry).ok()?;
    let slots: Vec<(u64, u64)> = slots.iter().map(|region| (region.start, region.end)).collect();
    let mut ordered = slots.clone();
    ordered.sort();
    let shared = holders(&slots).values().filter(|count| **count > 1).count() as u64;
    let kinds = entries.iter().map(|entry| if entry.start > 0 { entry.kind } else { 0 }).collect();
    Some(Gathered { slots, ordered, shared, kinds, geometry, opened: opens(image) })
}

impl Gathered {
    fn pair(&self, test: fn((u64, u64), (u64, u64)) -> bool) -> bool {
        self.ordered.windows(2).any(|pair| test(pair[0], pair[1]))
    }

    fn several(&self) -> bool {
        self.slots.len() > 5
    }

    fn has(&self, kind: u8) -> bool {
        self.kinds.contains(&kind)
    }

    /// The most regions with one start.
    fn alike(&self) -> usize {
        self.ordered.chunk_by(|one, other| one.0 == other.0).map(<[_]>::len).max().unwrap_or(0)
    }
}

type Fact = fn(&Gathered) -> bool;

const FACTS: [(&str, Fact); 24] = [
    ("no region", |volume| volume.slots.is_empty()),
    ("one region", |volume| volume.slots.len() == 1),
    ("several hundred", |volume| volume.slots.len() > 199 && volume.slots.len() < 1_000),
    ("nearly all that an index holds", |volume| volume.slots.len() > 4_000),
    ("ascending", |volume| volume.several() && volume.slots.is_sorted()),
    ("descending", |volume| volume.several() && volume.slots.is_sorted_by(|one, other| one > other)),
    ("neither", |volume| {
        volume.several() && !volume.slots.is_sorted() && !volume.slots.is_sorted_by(|one, other| one > other)
    }),
    ("one block each, side by side", |volume| {
        volume.several() && volume.ordered.windows(2).all(|pair| pair[1].0 == pair[0].0 + 1 && pair[0].1 == pair[1].0)
    }),
    ("touching, none shared", |volume| volume.shared == 0 && volume.pair(|one, other| one.1 == other.0)),
    ("one block shared", |volume| volume.shared == 1),
    ("all but two apart", |volume| {
        let meeting = volume.ordered.windows(2).filter(|pair| pair[0].1 > pair[1].0).count();
        volume.several() && meeting == 1
    }),
    ("the last two share", |volume| {
        let last = volume.ordered.len().saturating_sub(2);
        let meet = |pairs: &[(u64, u64)]| pairs.windows(2).any(|pair| pair[0].1 > pair[1].0);
        last > 3 && meet(&volume.ordered[last..]) && !meet(&volume.ordered[..=last])
    }),
    ("equal starts, other ends", |volume| volume.pair(|one, other| one.0 == other.0 && one.1 < other.1)),
    ("equal", |volume| volume.pair(|one, other| one == other)),
    ("eight of one start", |volume| volume.alike() >= 8),
    ("one around others", |volume| volume.pair(|one, other| one.0 < other.0 && one.1 > other.1)),
    ("up to the last block", |volume| {
        volume.several() && volume.ordered.iter().any(|region| region.1 == volume.geometry.data_end())
    }),
    ("one with all blocks", |volume| volume.ordered.contains(&(volume.geometry.reserved, volume.geometry.data_end()))),
    ("shared by files", |volume| volume.shared > 0 && !volume.has(UNUSABLE) && !volume.has(DELETED_FILE)),
    ("shared by unusable", |volume| volume.shared > 0 && !volume.has(FILE) && !volume.has(DELETED_FILE)),
    ("of several kinds, shared", |volume| volume.shared > 0 && volume.has(FILE) && volume.has(UNUSABLE)),
    ("of several kinds", |volume| volume.shared == 0 && volume.has(FILE) && volume.has(UNUSABLE)),
    ("others between", |volume| volume.several() && volume.kinds.len() > volume.slots.len() + 3),
    ("paths refused", |volume| volume.opened == 8 && volume.slots.len() > 1),
];

#[test]
fn generated_volumes_of_every_sort() {
    let mut counts = BTreeMap::new();
    each_line(Some("regions"), 6, 4_000, |_, image, _| {
        let Some(volume) = gathered(image) else { return };
        for (name, _) in FACTS.iter().filter(|(_, fact)| fact(&volume)) {
            *counts.entry((volume.geometry.edition, *name)).or_insert(0) += 1;
        }
        if volume.has(DELETED_FILE) {
            *counts.entry((volume.geometry.edition, "deleted")).or_insert(0) += 1;
        }
    });
    for (fact, count) in &counts {
        println!("{count} {fact:?}");
    }
    // Deleted files are of 1.0 alone.
    assert_eq!(counts.len(), 2 * FACTS.len() + 1, "{counts:?}");
    assert!(counts.values().all(|count| *count > 5), "{counts:?}");
}

/// The places of a table against the regions there are, by the answer and whether the image is refused with 7.
#[test]
fn generated_tables_of_every_length() {
    let mut counts = BTreeMap::new();
    each_line(Some("regions"), 4, 4_000, |line, image, text| {
        let words: Vec<u64> = text.split(' ').skip(1).take(3).map_while(|word| word.parse().ok()).collect();
        let ([answer, count, places], true) = (&words[..], line.starts_with("regions")) else { return };
        let needed = second::sharing::count(image) as u64;
        let length = match *places {
            _ if ![0, 7, 18].contains(answer) || (*answer == 7 && *count == 0) => "refused",
            0 if needed > 0 => "none",
            places if places + 1 == needed => "one short",
            places if places < needed => "short",
            places if places == needed => "exact",
            places if places == needed + 1 => "one more",
            places if places < needed + 100 => "more",
            _ => "far more",
        };
        assert_eq!(*answer == 18, ["none", "one short", "short"].contains(&length), "{line}: {text}");
        let kept = *places > 0;
        *counts.entry((length, *answer, length != "refused" || kept)).or_insert(0) += 1;
    });
    println!("{counts:?}");
    for (length, answer) in [("none", 18), ("one short", 18), ("short", 18)] {
        assert!(counts[&(length, answer, true)] > 30, "{length}: {counts:?}");
    }
    for (length, answer) in ["exact", "one more", "more", "far more"].into_iter().flat_map(|l| [(l, 0), (l, 7)]) {
        assert!(counts[&(length, answer, true)] > 20, "{length}: {counts:?}");
    }
    for answer in 1..=7 {
        assert!(counts[&("refused", answer, true)] > 0, "{answer}: {counts:?}");
    }
}

/// Within a scene, whether a table was asked for before and after a call that was accepted.
#[test]
fn generated_before_and_after() {
    let mut counts = BTreeMap::new();
    let mut session = Session::without_digests();
    let mut called: Option<(String, Option<Edition>, String)> = None;
    let mut last = String::new();
    for line in generator::script(7, 4_000, Some("regions")).unwrap_or_default().lines() {
        let edition = Edition::of_image(session.image());
        let text = session.execute(line).unwrap().unwrap_or_default();
        let word = line.split(' ').next().unwrap_or_default();
        match word {
            "delete" | "deletekeep" | "reclaim" | "restore" | "mkfile" if session.last == 0 => {
                called = Some((word.to_string(), edition, last.clone()));
            }
            "regions" => {
                if let Some((word, edition, before)) = called.take().filter(|(_, _, before)| !before.is_empty()) {
                    *counts.entry((word, edition, before == text)).or_insert(0) += 1;
                }
                last = text;
            }
            "sharing" | "reportadd" | "reporttext" | "reportnew" | "reportset" | "api" => {}
            _ => (called, last) = (None, String::new()),
        }
    }
    println!("{counts:?}");
    let changed = |word: &str, edition| counts.get(&(word.to_string(), Some(edition), false)).copied().unwrap_or(0);
    for edition in Edition::ALL {
        assert!(["delete", "deletekeep", "reclaim"].iter().all(|word| changed(word, edition) > 5), "{counts:?}");
    }
    assert!(changed("restore", Edition::V1_0) > 2, "{counts:?}");
}

#[test]
fn other_families_end_with_tables() {
    for kind in ["history", "damage", "built", "wiping"] {
        let (mut tables, mut engines) = (0, 0);
        let sessions = each_line(Some(kind), 5, 4_000, |line, _, _| {
            tables += u64::from(line.starts_with("regions ="));
            engines += u64::from(line == "sharing");
        });
        let calls: u64 = sessions.iter().map(|session| session.calls).sum();
        println!("{kind}: {tables} of {calls}");
        assert!(tables == engines && tables > 10 && tables < calls / 50, "{kind}: {tables} {engines} {calls}");
        let both = Edition::ALL.map(|edition| answers(&sessions, "regions", Some(edition)));
        assert!(both.iter().all(|counts| counts[0] > 1 && counts[18] > 0), "{kind}: {both:?}");
    }
}
