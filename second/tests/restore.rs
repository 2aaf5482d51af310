//! Restore: its refusals in order, its nine bytes, and what it brings back.

mod common;

use common::*;
use second::history::{History, Told};
use second::script::Session;
use second::superblock::{CHECKSUM, INDEX, MAGIC, STAMP, TOTAL, VERSION};
use second::{delete_keep, find, format, list, listing_text, read, reclaim, restore, Listed};

/// Restores, and asserts that a refusal writes nothing.
fn back(image: &mut [u8], path: &[u8]) -> u8 {
    let before = image.to_vec();
    let refusal = restore(image, path, 77).refusal;
    assert!(refusal == 0 || image == before, "refusal {refusal} wrote to the image");
    refusal
}

fn gone(image: &mut [u8], path: &[u8]) {
    assert_eq!(delete_keep(image, path, 66).refusal, 0, "{path:x?}");
}

/// Makes an entry and deletes it.
fn made_and_gone(image: &mut [u8], path: &[u8], directory: bool) {
    assert_eq!(if directory { mkdir(image, path) } else { mkfile(image, path, b"abc") }, 0, "{path:x?}");
    gone(image, path);
}

/// Puts a run of slots before all others, where the marker was, and gives its byte offset.
fn add_run(image: &mut [u8], kind: u8, slots: usize, name: &[u8]) -> usize {
    let index = index_size(image) + 64 * slots as u64;
    put(image, INDEX, &index.to_le_bytes());
    let marker = slot_at(image, 0);
    let run = marker + 64;
    put(image, marker, &[0; 64]);
    put(image, marker, &[2]);
    put(image, run, &vec![0; slots * 64]);
    put(image, run, &[kind, (slots - 1) as u8]);
    put(image, run + if matches!(kind, 0x11 | 0x19) { 10 } else { 34 }, name);
    run
}

#[test]
fn faults_of_the_image_in_order() {
    let mut image = fresh(8192, 512, 1);
    mkdir(&mut image, b"d");
    mkfile(&mut image, b"d/x", &[1; 600]);
    mkfile(&mut image, b"f", b"");
    let (housed, deleted) = (entry_at(&image, b"d/x"), entry_at(&image, b"f"));
    gone(&mut image, b"f");
    assert_eq!(back(&mut image.clone(), b"f"), 0);
    let refused = |image: &mut [u8], number: u8| {
        // One that would come back, one that is live, and none at all.
        assert_eq!([b"f".as_slice(), b"d", b""].map(|path| back(image, path)), [number; 3]);
    };
    // Each fault is laid over the ones before, and comes ahead of them all.
    image[VERSION] = 0x11;
    refit(&mut image);
    refused(&mut image, 9);
    put(&mut image, housed + 34, b"x/x\0");
    refused(&mut image, 8);
    put(&mut image, deleted + 18, &[9]);
    refused(&mut image, 7);
    let last = image.len() - 64;
    put(&mut image, last, &[0x10]);
    refused(&mut image, 6);
    put(&mut image, TOTAL, &[17]);
    refit(&mut image);
    refused(&mut image, 5);
    image[CHECKSUM] ^= 1;
    refused(&mut image, 4);
    image[VERSION] = 0x0F;
    refused(&mut image, 3);
    image[MAGIC] = b's';
    refused(&mut image, 2);
    refused(&mut image[..511], 1);
    image.resize(16_777_217, 0);
    refused(&mut image, 1);
}

#[test]
fn newer_versions_before_arguments() {
    for version in [0x11, 0x20, 0x7F, 0x80, 0xFF] {
        let mut image = fresh(8192, 512, 1);
        mkdir(&mut image, b"d");
        made_and_gone(&mut image, b"d/f", false);
        made_and_gone(&mut image, b"d/twice", false);
        made_and_gone(&mut image, b"d/twice", true);
        mkfile(&mut image, b"d/f", b"");
        image[VERSION] = version;
        refit(&mut image);
        // These would be 10, 11, 12 and 19.
        let paths: [&[u8]; 4] = [b"", b"none", b"d/f", b"d/twice"];
        assert_eq!(paths.map(|path| back(&mut image, path)), [9; 4]);
    }
}

#[test]
fn arguments_before_all_else() {
    let mut image = fresh(8192, 512, 1);
    made_and_gone(&mut image, b"a", false);
    for path in [b"".as_slice(), b"/", b".", b"..", b"a/", b"/a", b"a//a", b"a/../a", b"a\0", b"a?", b"\xC3", b"\xFF"] {
        assert_eq!(back(&mut image, path), 10, "{path:x?}");
    }
    // Longer than create takes, yet only without an entry.
    assert_eq!(back(&mut image, &[b'a'; 286]), 11);
    assert_eq!(back(&mut image, &[b'a'; 20_000]), 11);
    assert_eq!(back(&mut image, b"a"), 0);
}

#[test]
fn nothing_deleted_before_live_and_directory() {
    let mut image = fresh(8192, 512, 1);
    mkdir(&mut image, b"d");
    mkfile(&mut image, b"d/f", b"");
    mkfile(&mut image, b"f", b"");
    // Live, without a directory, below a file, and neither live nor deleted.
    assert_eq!([b"d".as_slice(), b"d/f", b"f"].map(|path| back(&mut image, path)), [11; 3]);
    assert_eq!([b"no/f".as_slice(), b"f/x", b"d/f/x", b"no"].map(|path| back(&mut image, path)), [11; 4]);
    gone(&mut image, b"d/f");
    assert_eq!(back(&mut image, b"d/f"), 0);
    assert_eq!(back(&mut image, b"d/f"), 11);
}

#[test]
fn live_before_several() {
    for (first, second, live) in [(false, false, false), (true, false, true), (false, true, true), (true, true, false)]
    {
        let mut image = fresh(8192, 512, 1);
        let make_live = |image: &mut [u8]| if live { mkdir(image, b"p") } else { mkfile(image, b"p", b"") };
        made_and_gone(&mut image, b"p", first);
        assert_eq!(make_live(&mut image), 0);
        assert_eq!(back(&mut image, b"p"), 12);
        gone(&mut image, b"p");
        assert_eq!(back(&mut image, b"p"), 19);
        made_and_gone(&mut image, b"p", second);
        assert_eq!(make_live(&mut image), 0);
        assert_eq!(back(&mut image, b"p"), 12);
    }
}

#[test]
fn live_without_its_directory_is_a_fault_of_the_image() {
    // So 12 and 13 never apply at once.
    let mut image = fresh(8192, 512, 1);
    mkdir(&mut image, b"d");
    made_and_gone(&mut image, b"d/f", false);
    mkfile(&mut image, b"d/f", b"");
    assert_eq!(back(&mut image, b"d/f"), 12);
    let directory = entry_at(&image, b"d");
    image[directory] = 0x19;
    assert_eq!(back(&mut image, b"d/f"), 8);
}

#[test]
fn directory_before_several() {
    for count in [1, 2, 3] {
        let mut image = fresh(8192, 512, 1);
        mkdir(&mut image, b"d");
        (0..count).for_each(|place| made_and_gone(&mut image, b"d/f", place == 1));
        let expected = if count == 1 { 0 } else { 19 };
        // Deleted, reclaimed by hand, a file, and a new directory.
        assert_eq!(back(&mut image.clone(), b"d/f"), expected);
        let directory = entry_at(&image, b"d");
        gone(&mut image, b"d");
        assert_eq!(back(&mut image, b"d/f"), 13);
        let mut without = image.clone();
        without[directory] = 0x10;
        assert_eq!(back(&mut without, b"d/f"), 13);
        assert_eq!(mkfile(&mut without, b"d", b""), 0);
        assert_eq!(back(&mut without, b"d/f"), 13);
        gone(&mut without, b"d");
        assert_eq!(mkdir(&mut without, b"d"), 0);
        assert_eq!(back(&mut without, b"d/f"), expected);
        assert_eq!(back(&mut image, b"d"), 0);
        assert_eq!(back(&mut image, b"d/f"), expected);
    }
}

#[test]
fn the_nearest_directory_must_be_live() {
    let mut image = fresh(8192, 512, 1);
    for path in [b"a".as_slice(), b"a/b", b"a/bc"] {
        assert_eq!(mkdir(&mut image, path), 0);
    }
    made_and_gone(&mut image, b"a/b/c", false);
    gone(&mut image, b"a/b");
    assert_eq!(back(&mut image, b"a/b/c"), 13);
    assert_eq!([back(&mut image, b"a/b"), back(&mut image, b"a/b/c")], [0, 0]);
}

#[test]
fn files_and_directories_are_counted_together() {
    for kinds in [vec![false, false], vec![true, true], vec![false, true], vec![true, false], vec![true, false, true]] {
        let mut image = fresh(8192, 512, 1);
        made_and_gone(&mut image, b"q", false);
        kinds.iter().for_each(|directory| made_and_gone(&mut image, b"p", *directory));
        assert_eq!(back(&mut image, b"p"), 19, "{kinds:?}");
        // Other paths are no hindrance.
        assert_eq!(back(&mut image, b"q"), 0);
        assert_eq!(reclaim(&mut image, 1).refusal, 0);
        assert_eq!(back(&mut image, b"p"), 11);
    }
}

#[test]
fn nine_bytes() {
    let mut image = fresh(8192, 512, 1);
    mkdir(&mut image, b"d");
    mkfile(&mut image, b"d/f", &[7; 600]);
    let entries = [(b"d".as_slice(), 0x11), (b"d/f", 0x12)].map(|(path, kind)| (path, kind, entry_at(&image, path)));
    delete_keep(&mut image, b"d/f", 0);
    delete_keep(&mut image, b"d", 0);
    for (path, kind, entry) in entries {
        let before = image.clone();
        assert_eq!(restore(&mut image, path, -1).refusal, 0);
        let nine: Vec<usize> = std::iter::once(entry).chain(entry + 2..entry + 10).collect();
        assert_eq!(changed(&before, &image), nine);
        assert_eq!((image[entry], find(&image, path).stamp), (kind, -1));
        assert_eq!(image[..512], before[..512]);
    }
}

#[test]
fn the_old_stamp_undoes_a_delete() {
    let mut image = fresh(8192, 512, 1);
    mkdir(&mut image, b"d");
    mkfile(&mut image, b"d/f", &[7; 600]);
    mkfile(&mut image, &[b'l'; 100], &[8; 100]);
    for path in [b"d/f".as_slice(), &[b'l'; 100]] {
        let before = image.clone();
        for stamp in [i64::MIN, -1, 0, i64::MAX] {
            assert_eq!(delete_keep(&mut image, path, stamp).refusal, 0);
            assert_ne!(image, before);
            assert_eq!(restore(&mut image, path, 5).refusal, 0);
            assert_eq!(image, before);
        }
    }
}

#[test]
fn stamp_of_the_super_block_stays() {
    let mut image = fresh(8192, 512, 1);
    mkfile(&mut image, b"a", &[1; 600]);
    mkfile(&mut image, b"b", &[2; 600]);
    gone(&mut image, b"b");
    let sizes = |image: &[u8]| (data_size(image), index_size(image), number(image, STAMP));
    let before = sizes(&image);
    assert_eq!(back(&mut image, b"b"), 0);
    assert_eq!(sizes(&image), before);
    // A reclaim now finds nothing to give back.
    assert_eq!(reclaim(&mut image, 99).refusal, 0);
    assert_eq!(sizes(&image), before);
}

#[test]
fn gone_after_a_reclaim() {
    let mut image = fresh(8192, 512, 1);
    made_and_gone(&mut image, b"a", false);
    made_and_gone(&mut image, b"d", true);
    assert_eq!(reclaim(&mut image, 1).refusal, 0);
    assert_eq!([back(&mut image, b"a"), back(&mut image, b"d")], [11; 2]);
    mkfile(&mut image, b"a", b"");
    assert_eq!(back(&mut image, b"a"), 11);
    gone(&mut image, b"a");
    assert_eq!(back(&mut image.clone(), b"a"), 0);
    assert_eq!(format(&mut image, 0x10, 512, 1, b"", 0).refusal, 0);
    assert_eq!(back(&mut image, b"a"), 11);
}

#[test]
fn a_directory_comes_back_empty() {
    let mut image = fresh(8192, 512, 1);
    mkdir(&mut image, b"d");
    mkdir(&mut image, b"d/e");
    mkfile(&mut image, b"d/e/f", b"abc");
    for path in [b"d/e/f".as_slice(), b"d/e", b"d"] {
        gone(&mut image, path);
    }
    assert_eq!([back(&mut image, b"d/e/f"), back(&mut image, b"d/e")], [13; 2]);
    assert_eq!(back(&mut image, b"d"), 0);
    assert_eq!([find(&image, b"d").refusal, find(&image, b"d/e").refusal, find(&image, b"d/e/f").refusal], [0, 11, 11]);
    let listed = list(&image, 0, &mut [0; 9]);
    assert_eq!((listed.kind, list(&image, listed.slot + 1, &mut [0; 9])), (0x11, Listed::default()));
    // Empty, it can be deleted and brought back once more.
    gone(&mut image, b"d");
    assert_eq!([back(&mut image, b"d"), back(&mut image, b"d/e/f"), back(&mut image, b"d/e")], [0, 13, 0]);
    assert_eq!([back(&mut image, b"d/e/f"), delete_keep(&mut image, b"d", 1).refusal], [0, 14]);
    let mut output = [0; 3];
    assert_eq!((read(&image, b"d/e/f", &mut output).length, &output), (3, b"abc"));
}

#[test]
fn paths_longer_than_create_takes() {
    for (length, slots) in [(285, 5), (286, 6), (300, 6), (16_349, 256)] {
        let name = vec![b'n'; length];
        let mut image = fresh(65_536, 512, 1);
        mkdir(&mut image, b"d");
        let run = add_run(&mut image, 0x1A, slots, &name);
        let before = image.clone();
        assert_eq!(restore(&mut image, &name, -1).refusal, 0, "{length}");
        assert_eq!(changed(&before, &image).len(), 9);
        assert_eq!((image[run], find(&image, &name).slot), (0x12, 1));
        gone(&mut image, &name);
        // Two of such a path, and such a path without its directory.
        add_run(&mut image, 0x19, slots, &name);
        assert_eq!(back(&mut image, &name), 19, "{length}");
    }
    for (directory, expected) in [(b"d".as_slice(), 0), (b"x", 13)] {
        let name = [directory, b"/", &[b'n'; 300]].concat();
        let mut image = fresh(65_536, 512, 1);
        mkdir(&mut image, b"d");
        add_run(&mut image, 0x19, 6, &name);
        assert_eq!(back(&mut image, &name), expected);
    }
}

#[test]
fn runs_longer_than_their_names() {
    let mut image = fresh(8192, 512, 1);
    for (kind, name) in [(0x1A, b"file".as_slice()), (0x19, b"directory")] {
        let run = add_run(&mut image, kind, 3, name);
        let field = run + if kind == 0x1A { 34 } else { 10 };
        // Nobody judges what is behind the zero, a slot that looks like an entry among it.
        put(&mut image, field + name.len() + 1, &[0xEE; 8]);
        put(&mut image, run + 64, &[0x12; 64]);
        let before = image.clone();
        assert_eq!(restore(&mut image, name, -1).refusal, 0);
        assert_eq!(changed(&before, &image).len(), 9);
        assert_eq!((find(&image, name).kind, image[run + 1]), (kind - 8, 2));
    }
}

#[test]
fn paths_are_compared_as_bytes() {
    let mut image = fresh(8192, 512, 1);
    // One letter in two ways, and names that begin alike.
    for path in ["À", "ab", "abcd"] {
        made_and_gone(&mut image, path.as_bytes(), false);
    }
    assert_eq!(["A\u{300}", "à", "a", "abc", "ab/c", "AB"].map(|path| back(&mut image, path.as_bytes())), [11; 6]);
    assert_eq!(["À", "ab", "abcd"].map(|path| back(&mut image, path.as_bytes())), [0; 3]);
}

#[test]
fn old_bytes_after_growth_and_new_neighbours() {
    let mut image = fresh(16_384, 512, 1);
    for (path, byte) in [(b"a", 1), (b"b", 2), (b"c", 3)] {
        mkfile(&mut image, path, &[byte; 600]);
    }
    for path in [b"a", b"b", b"c"] {
        gone(&mut image, path);
    }
    let slot = 2;
    assert_eq!(image[slot_at(&image, slot)], 0x1A);
    // Five slots more: the entry's number has changed, its bytes have not.
    mkfile(&mut image, &[b'n'; 285], &[4; 2000]);
    assert_eq!(back(&mut image, b"b"), 0);
    assert_eq!(find(&image, b"b").slot, slot as u64 + 5);
    assert_eq!(reclaim(&mut image, 1).refusal, 0);
    mkfile(&mut image, b"new a", &[5; 1024]);
    mkfile(&mut image, b"new c", &[6; 1024]);
    assert_eq!([find(&image, b"new a").start, find(&image, b"b").start, find(&image, b"new c").start], [1, 3, 5]);
    let mut output = [0; 601];
    assert_eq!(read(&image, b"b", &mut output).length, 600);
    assert_eq!((&output[..600], output[600]), (&[2; 600][..], 0));
}

#[test]
fn a_full_volume_is_no_hindrance() {
    let mut image = fresh(1024, 256, 2);
    assert_eq!(mkfile(&mut image, b"big", &[9; 256]), 0);
    assert_eq!(mkfile(&mut image, b"one", b""), 0);
    gone(&mut image, b"big");
    assert_eq!([mkfile(&mut image, b"y", b""), mkfile(&mut image, b"big", b"")], [15; 2]);
    assert_eq!(back(&mut image, b"big"), 0);
    assert_eq!(
        listing_text(&image),
        b"VOL\nF 0 1970-01-01T00:00:00Z one\nF 256 1970-01-01T00:00:00Z big\nlive 2 held 1\n"
    );
    assert_eq!(read(&image, b"big", &mut [0; 256]).length, 256);
}

/// Runs lines without their digests and compares what each prints; those that print nothing have no text.
fn plays(story: &[(&str, &str)]) -> Session {
    let mut session = Session::without_digests();
    for (line, text) in story {
        let printed = session.execute(line).unwrap().unwrap_or_default();
        assert_eq!(printed, *text, "{line}");
    }
    session
}

/// Lines and what they print.
const STORY: [(&str, &str); 36] = [
    ("image 8192", ""),
    ("format 16 512 1 - 0", "format 0"),
    ("mkfile 61 1 fill:600:1", "mkfile 0"),
    ("mkdir 64 1", "mkdir 0"),
    ("mkfile 642f66 1 fill:700:2", "mkfile 0"),
    ("deletekeep 61 2", "deletekeep 0"),
    ("deletekeep 642f66 2", "deletekeep 0"),
    ("deletekeep 64 2", "deletekeep 0"),
    ("history", "history ok"),
    ("restore 642f66 3", "restore 13"),
    ("restore 64 3", "restore 0"),
    ("history", "history ok"),
    ("restore 61 3", "restore 0"),
    ("restore 61 3", "restore 11"),
    ("history", "history ok"),
    // Its blocks stay held; those of the other are given back.
    ("reclaim 4", "reclaim 0"),
    ("history", "history ok"),
    ("restore 642f66 5", "restore 11"),
    ("mkfile 62 5 fill:1024:3", "mkfile 0"),
    ("find 62", "find 0 1 18 3 5 1024 5"),
    ("read 61 600", "read 0 600"),
    ("deletekeep 61 6", "deletekeep 0"),
    ("mkfile 61 6 fill:512:4", "mkfile 0"),
    ("restore 61 7", "restore 12"),
    ("deletekeep 61 8", "deletekeep 0"),
    ("restore 61 9", "restore 19"),
    ("history", "history ok"),
    ("reclaim 9", "reclaim 0"),
    ("restore 61 9", "restore 11"),
    ("history", "history ok"),
    ("deletekeep 62 9", "deletekeep 0"),
    ("restore 62 9", "restore 0"),
    ("deletekeep 62 9", "deletekeep 0"),
    ("reclaim 9", "reclaim 0"),
    ("history", "history ok"),
    ("open 0", "open 0 16 16 1 512 0 384 9 0 0 16"),
];

#[test]
fn history_over_a_story() {
    let session = plays(&STORY);
    let mut expected = [0; 20];
    for (number, count) in [(0, 3), (11, 3), (12, 1), (13, 1), (19, 1)] {
        expected[number] = count;
    }
    assert_eq!(session.answers("restore"), expected);
    assert_eq!((session.answers("deletekeep")[0], session.answers("no such word")), (7, [0; 20]));
}

#[test]
fn history_notices() {
    let mut image = fresh(8192, 512, 1);
    let mut history = History::begin(0x10, 512);
    mkfile(&mut image, b"a", &[1; 600]);
    history.tell(Told::File { path: b"a", bytes: &[1; 600] }, true);
    gone(&mut image, b"a");
    history.tell(Told::DeleteKeep { path: b"a" }, true);
    assert_eq!(history.check(&image), Ok(()));
    history.tell(Told::Restore { path: b"a" }, false);
    assert_eq!(history.check(&image), Ok(()));
    history.tell(Told::Restore { path: b"a" }, true);
    assert!(history.check(&image).is_err());
    assert_eq!(back(&mut image, b"a"), 0);
    assert_eq!(history.check(&image), Ok(()));
    // Other bytes, or blocks given back although it was live at the reclaim.
    let mut other = image.clone();
    other[512] ^= 1;
    assert!(history.check(&other).is_err());
    history.tell(Told::Reclaim, true);
    assert_eq!(history.check(&image), Ok(()));
    let mut lost = image.clone();
    gone(&mut lost, b"a");
    reclaim(&mut lost, 1);
    assert!(history.check(&lost).is_err());
    history.tell(Told::DeleteKeep { path: b"a" }, true);
    history.tell(Told::Reclaim, true);
    assert!(history.check(&image).is_err());
    assert_eq!(history.check(&lost), Ok(()));
    // Struck, it can't come back.
    history.tell(Told::Restore { path: b"a" }, true);
    assert_eq!(history.check(&lost), Ok(()));
}

#[test]
fn lines_of_a_script() {
    let mut session = Session::default();
    for line in ["image 1024", "format 16 256 2 - 0", "mkfile 61 5 -"] {
        session.execute(line).unwrap();
    }
    let made = session.execute("find 61").unwrap().unwrap();
    let image = made.split_once(" img=").unwrap().1;
    session.execute("deletekeep 61 6").unwrap();
    assert_eq!(session.execute("restore 61 5").unwrap().unwrap(), format!("restore 0 img={image}"));
    for line in ["restore", "restore 61", "restore 61 x", "restore 61 1 2", "restore 6 1", "restore 61 fill:1:1"] {
        assert!(session.execute(line).is_err(), "{line}");
    }
    assert_eq!(session.answers("restore")[0], 1);
}
