//! The report: sums, counts and text of its calls, the program over files, the generated calls of it, and the volumes
//! that are written for it.

mod common;

use common::*;
use second::generator::{self, Volumes};
use second::index::{Entry, DELETED_FILE, UNUSABLE};
use second::refusal::{Counts, OF_REPORT};
use second::report::{Lines, LEAST_ROOM, MOST_LINES, MOST_NAME, NUMBERS, PIECE, UNREAD};
use second::script::{lent, Session};
use second::volume::Volume;
use second::{create_directory, create_file, delete_keep, format, listing_text, restore, Edition};
use second::{list_all, report_add, report_of, report_text};
use std::collections::{BTreeMap, BTreeSet};
use std::fs;
use std::io::{self, Read, Write};
use std::path::PathBuf;
use std::process::{Command, Stdio};

#[rustfmt::skip]
const FAMILIES: [&str; 13] = [
    "history", "damage", "built", "edges", "args", "names", "restore", "tails", "crowded", "sums", "editions",
    "regions", "wiping",
];

/// The lines of a report over these images.
fn text_over(images: &[&[u8]]) -> String {
    let mut report = [0; NUMBERS];
    for image in images {
        report_add(image, &mut report);
    }
    text_of(&report)
}

fn text_of(report: &[u64]) -> String {
    let mut output = lent(LEAST_ROOM);
    let answer = report_text(report, &mut output);
    assert_eq!(answer.refusal, 0);
    let length = answer.length as usize;
    assert!(output[length..] == lent(LEAST_ROOM)[length..]);
    String::from_utf8(output[..length].to_vec()).unwrap()
}

/// Slots, blocks and bytes of each kind in an image that opens.
fn sums(image: &[u8]) -> [[u64; 3]; 6] {
    let mut report = [0; NUMBERS];
    assert_eq!(report_add(image, &mut report).refusal, 0);
    assert_eq!(report[UNREAD..], [0; 9]);
    std::array::from_fn(|kind| std::array::from_fn(|sum| report[3 * kind + sum]))
}

fn formatted(edition: Edition, length: usize) -> Vec<u8> {
    let mut image = vec![0; length];
    assert_eq!(format(&mut image, edition.version().into(), 512, 2, b"TERM7", 0).refusal, 0);
    image
}

fn term7(edition: Edition) -> Vec<u8> {
    let mut image = formatted(edition, 65_536);
    assert_eq!(create_directory(&mut image, b"session", 0x3C_0000).refusal, 0);
    assert_eq!(create_file(&mut image, b"session/verified", -1, b"yes").refusal, 0);
    image
}

const WORKED: &str = "file 1 1 3\ndeleted-file 0 0 0\ndir 1 0 0\ndeleted-dir 0 0 0\nunusable 0 0 0\nunused 0 0 0\n\
                      refused 1:1\nunread 0\n";
const NOTHING: &str = "file 0 0 0\ndeleted-file 0 0 0\ndir 0 0 0\ndeleted-dir 0 0 0\nunusable 0 0 0\nunused 0 0 0\n\
                       refused\nunread 0\n";

#[test]
fn the_worked_example() {
    for edition in Edition::ALL {
        assert_eq!(text_over(&[&term7(edition), &[]]), WORKED);
        assert_eq!(text_over(&[&[], &term7(edition)]), WORKED);
    }
    assert_eq!(text_over(&[]), NOTHING);
}

#[test]
fn continuing_slots_count() {
    // The longest name takes a slot more where its field is shorter.
    for (edition, longest) in [(Edition::V1_0, 5), (Edition::V1_10, 6)] {
        let mut image = formatted(edition, 65_536);
        let [file, directory] = [30, 54].map(|length| vec![b'n'; length - edition.entry_field(0)]);
        assert_eq!(mkfile(&mut image, &file, &[1; 513]), 0);
        assert_eq!(mkdir(&mut image, &directory), 0);
        assert_eq!(sums(&image)[0], [2, 2, 513]);
        assert_eq!(sums(&image)[2], [2, 0, 0]);
        assert_eq!(mkfile(&mut image, &[b'm'; 285], b""), 0);
        assert_eq!(sums(&image), [[2 + longest, 2, 513], [0; 3], [2, 0, 0], [0; 3], [0; 3], [0; 3]]);
    }
}

#[test]
fn deleted_ones_by_edition() {
    for (edition, kept) in [(Edition::V1_0, true), (Edition::V1_10, false)] {
        let mut image = formatted(edition, 65_536);
        assert_eq!(mkfile(&mut image, &[b'f'; 40], &[1; 700]), 0);
        assert_eq!(mkdir(&mut image, b"d"), 0);
        for path in [[b'f'; 40].as_slice(), b"d"] {
            assert_eq!(delete_keep(&mut image, path, 9).refusal, 0);
        }
        let held = [[0; 3], [2, 2, 700], [0; 3], [1, 0, 0], [0; 3], [0; 3]];
        let free = [[0; 3], [0; 3], [0; 3], [0; 3], [0; 3], [3, 0, 0]];
        assert_eq!(sums(&image), if kept { held } else { free });
        let restored = restore(&mut image, b"d", 9).refusal;
        assert_eq!(sums(&image)[2], if restored == 0 { [1, 0, 0] } else { [0; 3] });
        second::reclaim(&mut image, 9);
        assert_eq!(sums(&image)[5][0], if kept { 2 } else { 3 });
    }
}

/// What other programs leave in 1.10, before any writing call has made unused slots of it.
#[test]
fn left_over_is_unused() {
    let edition = Edition::V1_10;
    let mut image = formatted(edition, 65_536);
    assert_eq!(mkfile(&mut image, &[b'f'; 40], &[1; 700]), 0);
    assert_eq!(mkdir(&mut image, b"d"), 0);
    let index = number(&image, edition.super_field(0x1A4)) as usize;
    let at = image.len() - index + 64 * second::find(&image, &[b'f'; 40]).slot as usize;
    let left_over = [[0; 3], [0; 3], [1, 0, 0], [0; 3], [0; 3], [2, 0, 0]];
    image[at] = DELETED_FILE;
    edition.seal(&mut image[at..at + 128]);
    assert_eq!(sums(&image), left_over, "a deleted run");
    image[at + 1] ^= 1;
    assert_eq!(sums(&image), left_over, "a wrong sum before a stray slot");
    image[at] = 0xC3;
    assert_eq!(sums(&image), left_over, "two stray slots");
    image[at] = UNUSABLE;
    assert_eq!(report_add(&image, &mut [0; NUMBERS]).refusal, 6);
}

#[test]
fn unusable_entries_have_blocks() {
    for edition in Edition::ALL {
        let mut image = formatted(edition, 65_536);
        assert_eq!(mkfile(&mut image, b"f", &[1; 1_537]), 0);
        let found = second::find(&image, b"f");
        let index = number(&image, edition.super_field(0x1A4)) as usize;
        let at = image.len() - index + 64 * found.slot as usize;
        let region = [found.start, found.end, found.length].map(u64::to_le_bytes).concat();
        // A number stands where a file has its length, which says nothing here.
        put(&mut image, at, &[&[UNUSABLE; 10], region.as_slice()].concat());
        edition.seal(&mut image[at..at + 64]);
        assert_eq!(sums(&image), [[0; 3], [0; 3], [0; 3], [0; 3], [1, 4, 0], [0; 3]]);
    }
}

/// Of a file with blocks and no length the blocks count.
#[test]
fn blocks_go_by_the_region() {
    let mut image = formatted(Edition::V1_0, 65_536);
    assert_eq!(mkfile(&mut image, b"f", &[1; 1_537]), 0);
    let at = entry_at(&image, b"f");
    put(&mut image, at + 26, &[0; 8]);
    assert_eq!(sums(&image)[0], [1, 4, 0]);
}

/// An image for each refusal, in the order of the numbers.
fn refused_images() -> [Vec<u8>; 8] {
    let good = term7(Edition::V1_0);
    let with = |at: usize, byte: u8| {
        let mut image = good.clone();
        image[at] = byte;
        image
    };
    let mut older = with(0x1AF, 0x0F);
    refit(&mut older);
    let mut larger = with(0x1BC, 3);
    refit(&mut larger);
    let file = entry_at(&good, b"session/verified");
    let directory = entry_at(&good, b"session");
    let other_name = with(directory + 10, b'S');
    let longer = [good.as_slice(), &[0]].concat();
    [longer, with(0x1AC, 0), older, with(0x1BD, 0), larger, with(file, 0x41), with(file + 18, 1), other_name]
}

#[test]
fn every_refusal_is_counted() {
    let images = refused_images();
    let mut report = [0; NUMBERS];
    for (image, refusal) in images.iter().zip(1..) {
        (0..refusal).for_each(|_| assert_eq!(report_add(image, &mut report).refusal, refusal));
    }
    assert_eq!(report[..UNREAD + 1], [0; UNREAD + 1]);
    assert_eq!(report[UNREAD + 1..], [1, 2, 3, 4, 5, 6, 7, 8]);
    report[UNREAD] = 12;
    report[UNREAD + 4] = 0;
    let lines = text_of(&report);
    assert!(lines.ends_with("\nrefused 1:1 2:2 3:3 5:5 6:6 7:7 8:8\nunread 12\n"), "{lines}");
}

#[test]
fn no_longer_than_65_536() {
    for (edition, total) in [(Edition::V1_0, 129), (Edition::V1_10, 129)] {
        let longer = formatted(edition, total * 512);
        assert_eq!(opens(&longer), 0);
        assert_eq!(text_over(&[&longer]), NOTHING.replace("refused", "refused 1:1"));
        assert_eq!(text_over(&[&formatted(edition, (total - 1) * 512)]), NOTHING);
    }
}

#[test]
fn numbers_start_again_from_0() {
    let image = term7(Edition::V1_10);
    let mut report = [u64::MAX; NUMBERS];
    assert_eq!(report_add(&image, &mut report).refusal, 0);
    assert_eq!(report_add(&image[..600], &mut report).refusal, 5);
    assert_eq!(report[..9], [0, 0, 2, u64::MAX, u64::MAX, u64::MAX, 0, u64::MAX, u64::MAX]);
    assert_eq!(report[UNREAD + 5], 0);
    let largest = "18446744073709551615";
    assert!(text_of(&report).contains(&format!("refused 1:{largest} 2:{largest} 3:{largest} 4:{largest} 6:{largest}")));
    assert!(text_of(&[u64::MAX; NUMBERS]).len() < LEAST_ROOM);
}

#[test]
fn short_reports_and_outputs() {
    let image = term7(Edition::V1_0);
    for numbers in [0, 1, 26, 27, 28, 40] {
        for (image, answer) in [(image.as_slice(), 0), (&[], 1), (&image[..512], 5)] {
            let mut report: Vec<u64> = (100..100 + numbers).collect();
            let before = report.clone();
            let expected = if numbers < 27 { 18 } else { answer };
            assert_eq!(report_add(image, &mut report).refusal, expected, "{numbers}");
            assert_eq!(report == before, numbers < 27);
            assert_eq!(report.get(27..), before.get(27..));
        }
        for room in [0, 1, 1_023, 1_024, 1_025, 1_100] {
            let mut output = lent(room);
            let answer = report_text(&vec![7; numbers as usize], &mut output);
            let good = numbers >= 27 && room >= 1_024;
            assert_eq!((answer.refusal, answer.length > 0), (if good { 0 } else { 18 }, good), "{numbers} {room}");
            let length = answer.length as usize;
            assert_eq!(output[length..], lent(room)[length..]);
        }
    }
}

/// The names in some input, taken in pieces of a length; nothing for a line that is no name.
fn names(input: &[u8], piece: usize) -> Vec<Option<Vec<u8>>> {
    let (mut lines, mut names) = (Lines::default(), Vec::new());
    for part in input.chunks(piece) {
        lines.take(part, |name| names.push(name.map(<[u8]>::to_vec)));
    }
    lines.end(|name| names.push(name.map(<[u8]>::to_vec)));
    names
}

#[test]
fn lines_of_all_sorts() {
    let (longest, longer) = ([b'n'; 255], [b'n'; 256]);
    let lines: [(&[u8], bool); 11] = [
        (b"a", true),
        (b"", false),
        (b"a\r", true),
        (b"\r", true),
        (b"a\0", false),
        (b"\0", false),
        (&longest, true),
        (&longer, false),
        (&[b'n'; 5_000], false),
        (b" a\t\xff", true),
        (b"last", true),
    ];
    let input = lines.map(|(line, _)| line).join(&b'\n');
    let expected = lines.map(|(line, named)| named.then(|| line.to_vec()));
    for piece in [1, 2, 255, 256, 257, 4_096, 99_999] {
        assert_eq!(names(&input, piece), expected);
        assert_eq!(names(&[&input[..], b"\n"].concat(), piece), expected);
        assert_eq!(names(&[&input[..], b"\n\n"].concat(), piece).len(), expected.len() + 1);
    }
    assert!(names(b"", 1).is_empty());
    assert_eq!(names(b"\n", 1), [None]);
}

#[test]
fn a_thousand_lines() {
    for (input, count) in [
        ("a\n".repeat(999), 999),
        ("a\n".repeat(999) + "a", 1_000),
        ("a\n".repeat(1_000), 1_000),
        ("a\n".repeat(1_000) + "a", 1_000),
        ("a\n".repeat(1_001), 1_000),
        ("\n".repeat(700) + &"a\n".repeat(700), 1_000),
    ] {
        for piece in [1, 4_096] {
            assert_eq!(names(input.as_bytes(), piece).len(), count);
        }
    }
    assert_eq!(names(("\n".repeat(999) + "b\nc\n").as_bytes(), 7)[999], Some(b"b".to_vec()));
}

/// A folder of its own for a test, empty.
fn folder(name: &str) -> PathBuf {
    let folder = PathBuf::from(env!("CARGO_TARGET_TMPDIR")).join(name);
    let _ = fs::remove_dir_all(&folder);
    fs::create_dir_all(&folder).unwrap();
    folder
}

/// What `second` prints, called so and with this input. It may stop before the input's end.
fn program(arguments: &[&str], input: &[u8]) -> String {
    let mut command = Command::new(env!("CARGO_BIN_EXE_second"));
    let mut child = command.args(arguments).stdin(Stdio::piped()).stdout(Stdio::piped()).spawn().unwrap();
    let _ = child.stdin.take().unwrap().write_all(input);
    let output = child.wait_with_output().unwrap();
    assert!(output.status.success());
    String::from_utf8(output.stdout).unwrap()
}

/// The lines of refusals and of unread files that the program prints, and whether it counted a directory.
fn told(input: &[u8]) -> (String, bool) {
    let text = program(&["report"], input);
    assert_eq!(text.as_bytes(), report_of(input));
    (text.lines().skip(6).collect::<Vec<_>>().join(", "), text.contains("\ndir 1 0 0\n"))
}

#[test]
fn the_program_over_files() {
    let folder = folder("files");
    let path = |name: &str| folder.join(name).to_str().unwrap().to_string();
    for (name, image) in [("term7", term7(Edition::V1_0)), ("empty", Vec::new()), ("too long", vec![0; 65_537])] {
        fs::write(path(name), image).unwrap();
    }
    let (term7, empty, long, none) = (path("term7"), path("empty"), path("too long"), path("none"));
    assert_eq!(program(&["report"], format!("{term7}\n{empty}\n").as_bytes()), WORKED);
    assert_eq!(program(&["report"], format!("{empty}\n{term7}").as_bytes()), WORKED);
    assert_eq!(program(&["report"], b""), NOTHING);
    let counted = |refused: &str, unread: u64| (format!("refused{refused}, unread {unread}"), true);
    assert_eq!(told(format!("{term7}\n{long}\n{long}\n{none}\n").as_bytes()), counted(" 1:2", 1));
    assert_eq!(told(format!("{term7}\n\n{}\n", path("")).as_bytes()), counted("", 2));
    assert_eq!(told(format!("{term7}\n{term7}\r\n{term7}\0\n").as_bytes()), counted("", 2));
    fs::write(path("term7\r"), "short").unwrap();
    assert_eq!(told(format!("{term7}\n{term7}\r\n").as_bytes()), counted(" 1:1", 0));
    assert_eq!(text_lines(format!("{term7}\n").repeat(1_001).as_bytes())[0], "file 1000 1000 3000");
    assert_eq!(told((format!("{term7}\n") + &"\n".repeat(999) + &term7).as_bytes()), counted("", 999));
}

fn text_lines(input: &[u8]) -> Vec<String> {
    program(&["report"], input).lines().map(String::from).collect()
}

/// Both names are those of the file, but one is a byte too long.
#[test]
fn names_of_255_and_256_bytes() {
    let folder = folder("longest");
    fs::write(folder.join("f"), term7(Edition::V1_10)).unwrap();
    let named = |length: usize| {
        let folder = folder.to_str().unwrap();
        format!("{folder}{}f", "/".repeat(length - folder.len() - 1))
    };
    assert_eq!(named(255).len(), 255);
    assert_eq!(fs::read(named(256)).unwrap().len(), 65_536);
    assert_eq!(told(named(255).as_bytes()), ("refused, unread 0".to_string(), true));
    assert_eq!(told(named(256).as_bytes()), ("refused, unread 1".to_string(), false));
}

/// The same byte without end, with how many were given and the most that were asked for at once.
struct Endless {
    byte: u8,
    given: u64,
    asked: u64,
}

impl Read for Endless {
    fn read(&mut self, buffer: &mut [u8]) -> io::Result<usize> {
        buffer.fill(self.byte);
        self.given += buffer.len() as u64;
        self.asked = self.asked.max(buffer.len() as u64);
        Ok(buffer.len())
    }
}

/// Input is read in pieces, and none behind the last line that is used.
#[test]
fn long_input() {
    let mut line = Endless { byte: b'x', given: 0, asked: 0 };
    let one = report_of(line.by_ref().take(50_000_000));
    assert_eq!(one, NOTHING.replace("unread 0", "unread 1").as_bytes());
    assert!(line.given == 50_000_000 && line.asked <= PIECE, "{} {}", line.given, line.asked);
    let mut lines = Endless { byte: b'\n', given: 0, asked: 0 };
    let endless = report_of(&mut lines);
    assert_eq!(endless, NOTHING.replace("unread 0", &format!("unread {MOST_LINES}")).as_bytes());
    assert_eq!(lines.given, PIECE);
}

/// Neither a line nor lines without an end are gathered.
#[test]
fn room_for_long_lines() {
    for line in
        [vec![b'x'; 4_096], [[b'x'; 255].as_slice(), b"\n"].concat(), [[b'x'; 4_095].as_slice(), b"\n"].concat()]
    {
        let (mut lines, mut told) = (Lines::default(), 0);
        for _ in 0..5_000 {
            lines.take(&line, |_| told += 1);
            assert!((MOST_NAME..=2 * MOST_NAME + 2).contains(&lines.room()), "{}", lines.room());
        }
        assert_eq!(told, if line.ends_with(b"\n") { MOST_LINES } else { 0 });
    }
}

/// Gives its bytes, then an error, and behind that lines, which are no more of the input.
struct Failing<'a> {
    bytes: &'a [u8],
    failed: bool,
}

impl Read for Failing<'_> {
    fn read(&mut self, buffer: &mut [u8]) -> io::Result<usize> {
        if !self.bytes.is_empty() {
            return self.bytes.read(buffer);
        }
        if !self.failed {
            self.failed = true;
            return Err(io::Error::other("no further"));
        }
        buffer.fill(b'\n');
        Ok(buffer.len())
    }
}

#[test]
fn input_ends_where_it_cannot_be_read() {
    let folder = folder("failing");
    let [term7_name, empty] = ["term7", "empty"].map(|name| folder.join(name).to_str().unwrap().to_string());
    fs::write(&term7_name, term7(Edition::V1_10)).unwrap();
    fs::write(&empty, "").unwrap();
    let failing = |bytes: &[u8]| String::from_utf8(report_of(Failing { bytes, failed: false })).unwrap();
    assert_eq!(failing(b""), NOTHING);
    assert_eq!(failing(b"\n"), NOTHING.replace("unread 0", "unread 1"));
    assert_eq!(failing(format!("{term7_name}\n{empty}\n").as_bytes()), WORKED);
    assert_eq!(failing(format!("{empty}\n{term7_name}").as_bytes()), WORKED);
    // The error comes before, at and behind the end of a piece.
    for long in PIECE - 2..PIECE + 3 {
        let line = "x".repeat(long as usize);
        assert_eq!(failing(line.as_bytes()), NOTHING.replace("unread 0", "unread 1"), "{long}");
        let before = format!("{line}\n{empty}\n{term7_name}");
        assert_eq!(failing(before.as_bytes()), WORKED.replace("unread 0", "unread 1"), "{long}");
    }
    // A directory can be opened but not read.
    let mut command = Command::new(env!("CARGO_BIN_EXE_second"));
    let output = command.arg("report").stdin(fs::File::open(&folder).unwrap()).output().unwrap();
    assert_eq!((output.status.code(), output.stdout.as_slice()), (Some(0), NOTHING.as_bytes()));
    assert!(output.stderr.is_empty());
}

/// The sums against what other calls say of the image.
fn hold_against_others(image: &[u8]) {
    let kinds = sums(image);
    let volume = Volume::judge(image).unwrap();
    assert_eq!(kinds.iter().map(|[slots, ..]| slots).sum::<u64>(), volume.super_block.geometry.slots() - 2);
    assert_eq!(kinds.iter().map(|[_, blocks, _]| blocks).sum::<u64>(), volume.regions.iter().map(|r| r.blocks()).sum());
    let held = format!(" held {}\n", kinds[0][1] + kinds[1][1]);
    assert!(listing_text(image).ends_with(held.as_bytes()));
    let (mut files, mut slots) = ([0; 2], [0; 2]);
    let mut output = vec![0; 491_520];
    let records = list_all(image, 0, &mut output);
    let mut rest = &output[..records.length as usize];
    while !rest.is_empty() {
        let [kind, length, path] = [8, 32, 48].map(|at| number(rest, at));
        let place = usize::from(kind == 0x11);
        files[place] += length;
        slots[place] += 1;
        rest = &rest[56 + path as usize..];
    }
    assert_eq!([kinds[0][2], kinds[2][2]], files);
    assert!(kinds[0][0] >= slots[0] && kinds[2][0] >= slots[1]);
}

type Situation = fn(&[Entry], &[u64], Edition) -> bool;

const SITUATIONS: [(&str, Situation); 8] = [
    ("no entry", |entries, _, _| entries.is_empty()),
    ("long names", |entries, _, _| entries.iter().any(|entry| entry.slots > 1)),
    ("deleted files", |entries, _, _| entries.iter().any(|entry| entry.kind == 0x1A && entry.start > 0)),
    ("deleted directories", |entries, _, _| entries.iter().any(|entry| entry.kind == 0x19)),
    ("unusable", |entries, _, _| entries.iter().any(|entry| entry.kind == UNUSABLE)),
    ("blocks without length", |entries, _, _| entries.iter().any(|entry| entry.start > 0 && entry.length == 0)),
    ("left over", |_, stale, edition| edition == Edition::V1_10 && !stale.is_empty()),
    ("crowded", |entries, _, _| entries.len() > 100),
];

/// What there is in an image that opens.
fn situations(image: &[u8]) -> Vec<(Edition, &'static str)> {
    let Ok(volume) = Volume::judge(image) else { return Vec::new() };
    let (edition, index) = (volume.super_block.geometry.edition, volume.index);
    let met = SITUATIONS.iter().filter(|(_, holds)| holds(&index.entries, &index.stale, edition));
    met.map(|(name, _)| (edition, *name)).collect()
}

/// Deleted entries are kept in 1.0 alone, and nothing is left over there.
const MET: usize = 2 * SITUATIONS.len() - 3;

/// What the images are that generated calls count, how often a number started again from 0, and the answers.
#[derive(Default)]
struct Met {
    situations: BTreeMap<(Edition, &'static str), u64>,
    wrapped: u64,
    answers: BTreeMap<Option<Edition>, Counts>,
}

impl Met {
    fn follow(&mut self, kind: Option<&str>, calls: u64) {
        let mut session = Session::without_digests();
        for line in generator::script(83, calls, kind).unwrap_or_default().lines() {
            let before = *session.report();
            session.execute(line).unwrap();
            if line.starts_with("reportadd") && session.report() != &before {
                self.wrapped += u64::from(before.iter().zip(session.report()).any(|(before, after)| after < before));
                self.look(session.image());
            }
        }
        for ((_, edition), counts) in session.by_call().iter().filter(|((word, _), _)| word == "reportadd") {
            let sums = self.answers.entry(*edition).or_default();
            sums.iter_mut().zip(counts).for_each(|(sum, count)| *sum += count);
        }
    }

    fn look(&mut self, image: &[u8]) {
        if image.len() <= 65_536 && Volume::judge(image).is_ok() {
            hold_against_others(image);
            situations(image).into_iter().for_each(|met| *self.situations.entry(met).or_default() += 1);
        }
    }
}

#[test]
fn generated_in_every_situation() {
    let mut met = Met::default();
    met.follow(None, 40_000);
    met.follow(Some("report"), 10_000);
    let Met { situations, wrapped, answers } = met;
    println!("wrapped {wrapped} {situations:?} {answers:?}");
    assert!(wrapped > 50 && situations.len() == MET, "{wrapped} {situations:?}");
    assert!(situations.values().all(|count| *count > 2), "{situations:?}");
    for edition in Edition::ALL {
        // With the magic there 2 is no answer.
        let answers = answers[&Some(edition)];
        assert!(OF_REPORT.iter().all(|number| *number == 2 || answers[usize::from(*number)] > 4), "{answers:?}");
    }
    assert!(answers[&None][1] > 4 && answers[&None][2] > 4, "{answers:?}");
}

#[test]
fn generated_lengths() {
    let (mut adds, mut texts) = (BTreeSet::new(), BTreeSet::new());
    for line in generator::script(5, 6_000, Some("report")).unwrap_or_default().lines() {
        match line.split(' ').collect::<Vec<_>>()[..] {
            ["reportadd", numbers] => drop(adds.insert(numbers.to_string())),
            ["reporttext", numbers, room] => drop(texts.insert((numbers.to_string(), room.to_string()))),
            _ => {}
        }
    }
    for numbers in ["0", "26", "27", "28", "40"] {
        assert!(adds.contains(numbers));
        for room in ["0", "1023", "1024", "1100"] {
            assert!(texts.contains(&(numbers.to_string(), room.to_string())), "{numbers} {room}");
        }
    }
}

/// The answers to report calls, and how many of a hundred calls they are.
fn share(kind: &str) -> (Counts, u64) {
    let mut session = Session::without_digests();
    for line in generator::script(9, 4_000, Some(kind)).unwrap_or_default().lines() {
        session.execute(line).unwrap();
    }
    let reports = ["reportadd", "reporttext"].iter().flat_map(|word| session.answers(word)).sum::<u64>();
    (session.answers("reportadd"), 100 * reports / session.calls)
}

#[test]
fn every_family_reports() {
    for kind in FAMILIES {
        let (answers, share) = share(kind);
        println!("{kind}: {share} {answers:?}");
        assert!((2..8).contains(&share) && answers[0] > 20 && answers[18] > 2, "{kind}: {share} {answers:?}");
    }
    let (answers, share) = share("report");
    println!("report: {share} {answers:?}");
    assert!(share > 25 && OF_REPORT.iter().all(|number| answers[usize::from(*number)] > 5), "{share} {answers:?}");
}

#[test]
fn volumes_of_every_sort() {
    for seed in [1, 7] {
        hold_every_sort(seed);
    }
}

fn hold_every_sort(seed: u64) {
    let volumes: Vec<Vec<u8>> = Volumes::new(seed).take(300).collect();
    assert!(volumes.iter().all(|image| image.len() <= 65_540));
    assert!(volumes.iter().filter(|image| image.is_empty()).count() > 3);
    assert!(volumes.iter().filter(|image| image.len() > 65_536).count() > 3);
    let mut report = [0; NUMBERS];
    let mut answers = Counts::default();
    let mut editions = BTreeMap::new();
    let mut counts = BTreeMap::new();
    for image in &volumes {
        let answer = report_add(image, &mut report).refusal;
        answers[usize::from(answer)] += 1;
        if answer == 0 {
            *editions.entry(Edition::of_image(image)).or_insert(0) += 1;
            situations(image).into_iter().for_each(|met| *counts.entry(met).or_insert(0) += 1);
        }
    }
    println!("{answers:?} {editions:?} {counts:?}");
    assert_eq!(report[UNREAD + 1..], answers[1..9]);
    assert!(answers[1..9].iter().all(|count| *count >= 15));
    assert_eq!(editions, BTreeMap::from([(Some(Edition::V1_0), 75), (Some(Edition::V1_10), 75)]));
    assert_eq!(counts.len(), MET, "{counts:?}");
}

#[test]
fn volumes_in_files() {
    let folder = folder("volumes");
    let directory = folder.join("new").to_str().unwrap().to_string();
    let names = program(&["volumes", "3", "45", &directory], b"");
    assert_eq!(names.lines().count(), 45);
    assert!(names.starts_with(&format!("{directory}/v0001.img\n")) && names.ends_with("/v0045.img\n"));
    let volumes: Vec<Vec<u8>> = Volumes::new(3).take(45).collect();
    assert!(names.lines().zip(&volumes).all(|(name, image)| fs::read(name).unwrap() == *image));
    let images: Vec<&[u8]> = volumes.iter().map(Vec::as_slice).collect();
    assert_eq!(program(&["report"], names.as_bytes()), text_over(&images));
    assert_ne!(volumes, Volumes::new(4).take(45).collect::<Vec<_>>());
}
