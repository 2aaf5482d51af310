//! Generated scripts: histories with their check, and that every refusal is met.

use second::generator;
use second::history::{History, Told};
use second::refusal::{Counts, OF_RESTORE};
use second::script::{digest, lent, Session};
use second::selftest;
use second::superblock::Geometry;
use second::xorshift::{fill, Xorshift};
use second::Edition;
use std::collections::{BTreeMap, HashMap};

#[test]
fn histories_hold() {
    let tally = selftest::run(20_260_101, 3_200);
    println!("{tally}");
    assert!(tally.failures.is_empty(), "{:?}", tally.failures);
    assert!(tally.histories >= 3_000);
    for (number, met) in tally.met.iter().enumerate() {
        assert!(*met > 0, "refusal {number} was never met");
    }
}

#[test]
fn scripts_are_the_same_every_time() {
    #[rustfmt::skip]
    let kinds = [
        "history", "damage", "built", "edges", "args", "names", "restore", "tails", "crowded", "sums", "editions",
        "report", "regions", "wiping",
    ];
    for kind in kinds {
        let script = generator::script(3, 200, Some(kind));
        assert!(script.as_ref().is_some_and(|script| script.len() > 1000));
        assert_eq!(script, generator::script(3, 200, Some(kind)));
        assert_ne!(script, generator::script(4, 200, Some(kind)));
    }
    assert_eq!(generator::script(3, 10, Some("nonsense")), None);
}

#[test]
fn scripts_can_be_read() {
    let mut session = Session::default();
    let script = generator::script(11, 10_000, None).unwrap_or_default();
    for line in script.lines() {
        let answer = session.execute(line);
        assert!(answer.is_ok(), "{answer:?} {line}");
        assert!(!answer.is_ok_and(|text| text.is_some_and(|text| text.contains("FAILED"))), "{line}");
    }
    assert!(session.calls >= 10_000);
}

/// The word of a call that takes a name, the name, and the refusal number.
type NamedCall = (String, Vec<u8>, u8);

fn named_calls(kind: &str) -> Vec<NamedCall> {
    let mut session = Session::without_digests();
    let mut calls = Vec::new();
    for line in generator::script(77, 8_000, Some(kind)).unwrap_or_default().lines() {
        session.execute(line).unwrap();
        let words: Vec<&str> = line.split(' ').collect();
        let name = match words[0] {
            "format" => words[4],
            "find" | "read" | "mkfile" | "mkdir" | "delete" | "deletekeep" | "restore" => words[1],
            _ => continue,
        };
        calls.push((words[0].to_string(), unhex(name), session.last));
    }
    calls
}

fn unhex(word: &str) -> Vec<u8> {
    let digits = if word == "-" { "" } else { word };
    (0..digits.len()).step_by(2).map(|at| u8::from_str_radix(&digits[at..at + 2], 16).unwrap()).collect()
}

/// Whether a character of the name lies across the end of a slot of its entry, as edition 1.0 has them.
fn straddles(word: &str, name: &[u8]) -> bool {
    let first = if word == "mkdir" { 54 } else { 30 };
    (first..name.len()).step_by(64).any(|end| (0x80..0xC0).contains(&name[end]))
}

/// How many of the calls answered this number and took such a name.
fn met(calls: &[NamedCall], refusal: u8, test: impl Fn(&str, &[u8]) -> bool) -> usize {
    calls.iter().filter(|(word, name, answer)| *answer == refusal && test(word, name)).count()
}

#[test]
fn names_are_mixed() {
    for kind in ["history", "built", "edges", "args", "names", "restore"] {
        let calls = named_calls(kind);
        let wide = |name: &[u8]| !name.is_ascii();
        let made = met(&calls, 0, |word, name| word.starts_with("mk") && wide(name));
        let made_plain = met(&calls, 0, |word, name| word.starts_with("mk") && !wide(name));
        assert!(made > 40 && made_plain > 40, "{kind}: {made} {made_plain}");
        // Built volumes are formatted by no call.
        let formatted = met(&calls, 0, |word, name| word == "format" && wide(name));
        assert!(formatted > 20 || kind == "built", "{kind}: {formatted}");
        let refused = met(&calls, 10, |_, name| std::str::from_utf8(name).is_err());
        assert!(refused > 20, "{kind}: {refused}");
    }
}

#[test]
fn names_of_every_width() {
    let calls = named_calls("names");
    for lead in [0xC2..=0xDF, 0xE0..=0xEF, 0xF0..=0xF4] {
        let leads = |byte: Option<&u8>| byte.is_some_and(|byte| lead.contains(byte));
        assert!(met(&calls, 0, |_, name| name.len() <= 4 && leads(name.first())) > 5, "{lead:x?} alone");
        assert!(met(&calls, 0, |_, name| name.iter().skip(4).any(|byte| leads(Some(byte)))) > 5, "{lead:x?} later");
        assert!(met(&calls, 10, |_, name| leads(name.last())) > 5, "{lead:x?} cut off");
    }
    assert!(met(&calls, 0, |word, name| word.starts_with("mk") && straddles(word, name)) > 5);
    for refusal in [0, 10] {
        let ends_wide = |name: &[u8], length: usize| name.len() == length && name[length - 1] >= 0x80;
        assert!(met(&calls, refusal, |word, name| word.starts_with("mk") && ends_wide(name, 285)) > 5);
        assert!(met(&calls, refusal, |word, name| word == "format" && ends_wide(name, 51)) > 5);
    }
}

/// Two bytes that stand together in no name.
type Fault = fn(u8, u8) -> bool;

const FAULTS: [(&str, Fault); 9] = [
    ("overlong, two bytes", |lead, _| matches!(lead, 0xC0 | 0xC1)),
    ("overlong, three bytes", |lead, tail| lead == 0xE0 && (0x80..0xA0).contains(&tail)),
    ("overlong, four bytes", |lead, tail| lead == 0xF0 && (0x80..0x90).contains(&tail)),
    ("surrogate", |lead, tail| lead == 0xED && (0xA0..0xC0).contains(&tail)),
    ("above", |lead, tail| lead == 0xF4 && (0x90..0xC0).contains(&tail)),
    ("no lead", |lead, _| lead >= 0xF5),
    ("lone tail", |before, tail| before < 0x80 && (0x80..0xC0).contains(&tail)),
    ("refused code", |lead, tail| lead == 0xC2 && (0x80..0xA1).contains(&tail)),
    ("separator inside", |lead, tail| lead >= 0xC2 && tail == b'/'),
];

#[test]
fn names_with_every_fault() {
    let calls = named_calls("names");
    for (what, fault) in FAULTS {
        let faulty = |name: &[u8]| name.windows(2).any(|pair| fault(pair[0], pair[1]));
        assert!(met(&calls, 10, |_, name| faulty(name)) > 5, "{what}");
        assert_eq!(met(&calls, 0, |_, name| faulty(name)), 0, "{what}");
    }
}

/// How often the restores of a generated script answered each number.
fn restore_answers(count: u64, kind: Option<&str>) -> Counts {
    let mut session = Session::without_digests();
    for line in generator::script(5, count, kind).unwrap_or_default().lines() {
        session.execute(line).unwrap();
    }
    session.answers("restore")
}

#[test]
fn restores_answer_every_number() {
    let mixed = restore_answers(30_000, None);
    println!("{}", selftest::restore_table(&mixed));
    for (number, met) in mixed.iter().enumerate() {
        let expected = OF_RESTORE.contains(&(number as u8));
        assert_eq!(*met > 0, expected, "restore answered {number} {met} times");
    }
    // The image is whole there, so the other numbers come from elsewhere.
    for kind in ["history", "restore"] {
        let answers = restore_answers(20_000, Some(kind));
        assert!([0, 10, 11, 12, 13, 19].iter().all(|number| answers[*number] > 20), "{kind}: {answers:?}");
    }
}

/// What a restore is to undo.
struct Deleted {
    /// The calls so far, and the size of the index area.
    calls: u64,
    index: u64,
    /// The digest of the image before the delete.
    image: u64,
    /// Whether a restore has failed for want of the directory.
    homeless: bool,
}

fn index_size(session: &Session) -> u64 {
    let edition = Edition::of_image(session.image()).unwrap_or_default();
    Geometry::stored(session.image(), edition).map_or(0, |geometry| geometry.index)
}

/// In what situations an accepted restore came.
fn situations(session: &Session, path: &[u8], deleted: &Deleted) -> Vec<&'static str> {
    let found = second::find(session.image(), path);
    let all = [
        ("at once", session.calls == deleted.calls + 1),
        ("later", session.calls > deleted.calls + 1),
        ("index grown", index_size(session) > deleted.index),
        ("to the byte", digest(session.image()) == deleted.image),
        ("after its directory", deleted.homeless),
        ("directory", found.kind == 0x11),
        ("file with blocks", found.end > 0),
        ("long name", path.len() > 93),
    ];
    all.into_iter().filter(|(_, holds)| *holds).map(|(name, _)| name).collect()
}

fn count_situations(kind: &str) -> BTreeMap<&'static str, u64> {
    let mut session = Session::without_digests();
    let mut deleted = HashMap::new();
    let mut counts = BTreeMap::new();
    for line in generator::script(6, 20_000, Some(kind)).unwrap_or_default().lines() {
        let words: Vec<&str> = line.split(' ').collect();
        let (calls, index, image) = (session.calls + 1, index_size(&session), digest(session.image()));
        session.execute(line).unwrap();
        let path = words.get(1).copied().unwrap_or_default().to_string();
        match (words[0], session.last) {
            ("image" | "imagefill" | "format" | "poke", _) => deleted.clear(),
            ("deletekeep", 0) => drop(deleted.insert(path, Deleted { calls, index, image, homeless: false })),
            ("restore", 13) => deleted.get_mut(&path).into_iter().for_each(|one| one.homeless = true),
            ("restore", 0) => {
                let one = deleted.remove(&path);
                let names = one.map_or(Vec::new(), |one| situations(&session, &unhex(&path), &one));
                names.iter().for_each(|name| *counts.entry(*name).or_default() += 1);
            }
            _ => {}
        }
    }
    counts
}

#[test]
fn restores_in_every_situation() {
    for (kind, least) in [("restore", 20), ("history", 5)] {
        let counts = count_situations(kind);
        println!("{kind}: {counts:?}");
        assert!(counts.len() == 8 && counts.values().all(|count| *count > least), "{kind}: {counts:?}");
    }
}

#[test]
fn restores_of_built_entries() {
    let mut session = Session::without_digests();
    let (mut long, mut spare) = (0, 0);
    for line in generator::script(9, 18_000, Some("built")).unwrap_or_default().lines() {
        session.execute(line).unwrap();
        let words: Vec<&str> = line.split(' ').collect();
        if words[0] != "restore" || session.last != 0 {
            continue;
        }
        let path = unhex(words[1]);
        let found = second::find(session.image(), &path);
        let entry = session.image().len() - index_size(&session) as usize + 64 * found.slot as usize;
        let first = if found.kind == 0x11 { 54 } else { 30 };
        let needed = (path.len() + 1).saturating_sub(first).div_ceil(64);
        long += u64::from(path.len() > 285);
        spare += u64::from(usize::from(session.image()[entry + 1]) > needed);
    }
    println!("built: long {long} spare {spare}");
    assert!(long > 10 && spare > 10, "{long} {spare}");
    let answers = session.answers("restore");
    assert!([12, 13, 19].iter().all(|number| answers[*number] > 10), "{answers:?}");
}

/// Runs a script and gives the lines it prints.
fn printed(script: &str) -> Vec<String> {
    let mut session = Session::default();
    script.lines().filter_map(|line| session.execute(line).unwrap()).collect()
}

/// The lines without their digests.
fn bare(lines: &[String]) -> Vec<&str> {
    lines.iter().map(|line| line.split(" out=").next().unwrap().split(" img=").next().unwrap()).collect()
}

#[test]
fn lines_are_as_described() {
    assert_eq!(digest(b""), 0xCBF2_9CE4_8422_2325);
    assert_eq!(digest(b"a"), 0xAF63_DC4C_8601_EC8C);
    assert_eq!(lent(4), [0xA5, 0xA2, 0xAB, 0xB0]);
    assert_eq!(fill(3, 0), fill(3, 0x9E37_79B9_7F4A_7C15));
    let script =
        "# nothing\n\nopen 0\nimage 8192\nhistory\nformat 16 512 1 5445 -5\nopen 3\nmkfile 61 9 616263\nlist 0 1\n\
                  listall 0 57\nlistall 0 56\nlistall 2 0\nread 61 2\nfind 61\nlisting 131071\nlisting 131072\napi\n\
                  history\npoke 9000 00\nhistory\n";
    let lines = printed(script);
    let expected = [
        "open 1 0 0 0 0 0 0 0 0 0 0",
        "history none",
        "format 0",
        "open 0 16 16 1 512 0 128 -5 -5 2 16",
        "mkfile 0",
        "list 0 1 18 1 2 3 9 1",
        "listall 0 1 57 0",
        "listall 18 0 0 0",
        "listall 0 0 0 0",
        "read 18 0",
        "find 0 1 18 1 2 3 9",
        "listing 18 0",
        "listing 0 44",
        "api 2",
        "history ok",
        "history none",
    ];
    assert_eq!(bare(&lines), expected);
    assert_eq!(lines[0], "open 1 0 0 0 0 0 0 0 0 0 0 out=cbf29ce484222325 img=cbf29ce484222325");
}

#[test]
fn lines_of_reports() {
    let script = "image 8192\nformat 16 512 1 5445 -5\nmkfile 61 9 616263\nreportset 39 5\n\
                  reportset 2 18446744073709551615\nreportadd 27\nreportadd 26\nreporttext 27 1024\n\
                  reporttext 26 1024\nreporttext 27 1023\nreportnew\nreporttext 40 1100\nhistory\n";
    let zeros = "0 ".repeat(24);
    let report = format!("1 1 2 {zeros}27 28 29 30 31 32 33 34 35 36 37 38 5");
    let expected = [
        "format 0",
        "mkfile 0",
        &format!("reportadd 0 {report}"),
        &format!("reportadd 18 {report}"),
        "reporttext 0 103",
        "reporttext 18 0",
        "reporttext 18 0",
        "reporttext 0 103",
        "history ok",
    ];
    let lines = printed(script);
    assert_eq!(bare(&lines), expected);
    // Only the two that are accepted write, and none of them the same.
    let outputs: Vec<&str> = lines.iter().filter_map(|line| line.split_once(" out=")?.1.split(' ').next()).collect();
    let untouched = [1_024, 1_023].map(|room| format!("{:016x}", digest(&lent(room))));
    assert_eq!(outputs[1..3], untouched);
    assert!(outputs[0] != untouched[0] && outputs[0] != outputs[3]);
}

#[test]
fn lines_that_cannot_be_read() {
    for line in [
        "nonsense",
        "open",
        "open x",
        "open 17000001",
        "find 6",
        "find 6g",
        "poke 1",
        "mkdir 61",
        "open 1 2",
        "listing",
        "listing 1 2",
        "listall 0",
        "listall -1 9",
        "api 1",
        "mkfile 61 1 fill:3",
        "reportadd",
        "reportadd 41",
        "reportadd 27 27",
        "reportset 40 1",
        "reportset 0",
        "reportset 0 18446744073709551616",
        "reportnew 1",
        "reporttext 27",
        "reporttext 41 1024",
        "reporttext 27 17000001",
    ] {
        assert!(Session::default().execute(line).is_err(), "{line}");
    }
}

#[test]
fn any_image_gets_an_answer() {
    // A good super-block before random index bytes of low values, so that the walk goes far.
    let mut rng = Xorshift::new(99);
    let mut met = Counts::default();
    for round in 0..4_000 {
        let mut session = Session::default();
        let mut lines = vec!["image 2048".to_string(), "format 16 256 2 - 0".to_string()];
        lines.push(format!("poke {} {:02x}", 0x1A4, 128 + 64 * rng.below(2)));
        for _ in 0..rng.below(12) {
            let at = if rng.chance(80) { 2048 - rng.below(256) } else { 0x194 + rng.below(42) };
            lines.push(format!("poke {at} {:02x}", rng.pick(&[0, 1, 2, 0x11, 0x12, 0x18, 0x1A, 0x41, 0xFF])));
        }
        lines.extend(
            [
                "open 51",
                "find 41",
                "list 0 300",
                "listall 0 999",
                "read 41 99",
                "mkfile 42 1 fill:300:1",
                "delete 41 1",
                "deletekeep 42 1",
                "restore 41 1",
                "reclaim 1",
                "listing 131072",
                "reportadd 27",
                "regions =+1 1",
                "sharing",
            ]
            .map(String::from),
        );
        for line in lines {
            assert!(session.execute(&line).is_ok(), "{round} {line}");
        }
        met.iter_mut().zip(session.met).for_each(|(sum, number)| *sum += number);
    }
    assert!(met[6] > 0 && met[0] > 0);
}

#[test]
fn the_check_notices() {
    let mut image = vec![0; 8192];
    assert_eq!(second::format(&mut image, 0x10, 512, 1, b"", 0).refusal, 0);
    let mut history = History::begin(0x10, 512);
    for (path, bytes) in [(b"a", [1; 600]), (b"b", [2; 600])] {
        assert_eq!(second::create_file(&mut image, path, 0, &bytes).refusal, 0);
        history.tell(Told::File { path, bytes: &bytes }, true);
    }
    assert_eq!(history.check(&image), Ok(()));
    // A changed byte, a lost entry, a longer region, a shared block, another kind.
    let entry = image.len() - 192;
    for (at, byte) in [(520, 9), (entry, 0x10), (entry + 18, 6), (entry + 10, 0), (entry, 0x1A), (entry + 34, b'c')] {
        let mut other = image.clone();
        other[at] = byte;
        assert!(history.check(&other).is_err(), "{at} {byte}");
    }
    let mut wiped = (history.clone(), image.clone());
    wiped.0.tell(Told::Delete { path: b"a" }, false);
    assert_eq!(wiped.0.check(&wiped.1), Ok(()));
    wiped.0.tell(Told::Delete { path: b"a" }, true);
    assert!(wiped.0.check(&wiped.1).is_err());
    assert_eq!(second::delete(&mut wiped.1, b"a", 0).refusal, 0);
    assert_eq!(wiped.0.check(&wiped.1), Ok(()));
    let mut later = history.clone();
    later.tell(Told::DeleteKeep { path: b"a" }, false);
    assert_eq!(later.check(&image), Ok(()));
    later.tell(Told::DeleteKeep { path: b"a" }, true);
    assert!(later.check(&image).is_err() && later.check(&wiped.1).is_err());
    assert_eq!(second::delete_keep(&mut image, b"a", 0).refusal, 0);
    assert!(wiped.0.check(&image).is_err());
    assert_eq!(later.check(&image), Ok(()));
    later.tell(Told::Reclaim, true);
    assert!(later.check(&image).is_err());
    assert_eq!(second::reclaim(&mut image, 0).refusal, 0);
    assert_eq!(later.check(&image), Ok(()));
}
