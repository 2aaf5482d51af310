//! The name rule by three judges: the library, the second program, and Rust's own reading of UTF-8 with the rule on codes.
//! They judge every string of one, two and three bytes, and those of four bytes that lie at the edges, in several ways each: as
//! arguments, and stored in volumes of both editions.

use crate::library::Library;
use second::index::{DELETED_FILE, FILE, FILE_NAME_AT, VOLUME_NAME_AT};
use second::refusal::{Refusal, BAD_NAME, INDEX, NOT_LIVE, PATHS, SUCCESS};
use second::script::hex;
use second::store::{Own, Store};
use second::{Edition, Written};
use std::ops::Range;
use std::thread;

const THREADS: usize = 2;

/// The edges of the rule on codes, then of tails and leads in RFC 3629's table, with their neighbours.
#[rustfmt::skip]
const EDGES: [u8; 42] = [
    0x00, 0x1F, 0x20, 0x22, 0x2A, 0x2E, 0x2F, 0x3A, 0x3C, 0x3E, 0x3F, 0x5C, 0x61, 0x7E, 0x7F,
    0x80, 0x81, 0x8F, 0x90, 0x9F, 0xA0, 0xA1, 0xBF,
    0xC0, 0xC1, 0xC2, 0xC3, 0xDF, 0xE0, 0xE1, 0xEC, 0xED, 0xEE, 0xEF, 0xF0, 0xF1, 0xF3, 0xF4, 0xF5, 0xF7, 0xF8, 0xFF,
];

/// The first two judges.
const PROGRAMS: [&(dyn Store + Sync); 2] = [&Library, &Own];

/// What the string is: an argument of find, an argument of format, or stored at a byte of the image, which open judges.
enum Place {
    Path,
    Name,
    /// The byte, and the run whose sum is then made right, in an edition that has sums.
    Stored(usize, Range<usize>),
}

/// A way to lay a string before the judges.
struct Way {
    title: String,
    edition: Edition,
    place: Place,
    image: Vec<u8>,
    wanted: Wanted,
}

/// The third judge's answer.
type Wanted = fn(&[u8]) -> Refusal;

/// How many strings were judged, and how many of them were good in each way.
struct Tally {
    strings: u64,
    good: Vec<u64>,
}

pub fn run() -> Result<String, String> {
    let shares = thread::scope(|scope| {
        let started: Vec<_> = (0..THREADS).map(|place| scope.spawn(move || share(place))).collect();
        started.into_iter().map(|thread| thread.join().map_err(|_| "a thread failed")).collect::<Result<Vec<_>, _>>()
    })?;
    let tallies = shares.into_iter().collect::<Result<Vec<Tally>, String>>()?;
    let strings: u64 = tallies.iter().map(|tally| tally.strings).sum();
    let good = |place: usize| tallies.iter().map(|tally| tally.good[place]).sum::<u64>();
    let ways = ways()?;
    let counts = ways.iter().enumerate().map(|(place, way)| format!("{} as {}", good(place), way.title));
    let counts: Vec<String> = counts.collect();
    Ok(format!("{strings} strings judged in {} ways, good {}, 0 differences", ways.len(), counts.join(", ")))
}

/// Every `THREADS`th first byte and all strings that start with it.
fn share(place: usize) -> Result<Tally, String> {
    let mut ways = ways()?;
    let mut tally = Tally { strings: 0, good: vec![0; ways.len()] };
    for first in (0..=0xFF).skip(place).step_by(THREADS) {
        each_string(first, &mut |string| judge(&mut ways, string, &mut tally))?;
    }
    Ok(tally)
}

fn each_string(first: u8, judge: &mut impl FnMut(&[u8]) -> Result<(), String>) -> Result<(), String> {
    judge(&[first])?;
    for second in 0..=0xFF {
        judge(&[first, second])?;
        for third in 0..=0xFF {
            judge(&[first, second, third])?;
        }
    }
    if EDGES.contains(&first) {
        for (second, third) in EDGES.iter().flat_map(|second| EDGES.map(|third| (*second, third))) {
            EDGES.iter().try_for_each(|fourth| judge(&[first, second, third, *fourth]))?;
        }
    }
    Ok(())
}

/// All three judges on one string; the first difference is the error.
fn judge(ways: &mut [Way], string: &[u8], tally: &mut Tally) -> Result<(), String> {
    tally.strings += 1;
    for (way, good) in ways.iter_mut().zip(&mut tally.good) {
        let wanted = (way.wanted)(string);
        let [library, own] = way.ask(string);
        if library != wanted || own != wanted {
            let (title, string) = (&way.title, hex(string));
            return Err(format!("{string} as {title}: library {library}, second {own}, Rust's reading {wanted}"));
        }
        *good += u64::from(wanted != INDEX && wanted != BAD_NAME);
    }
    Ok(())
}

impl Way {
    fn ask(&mut self, string: &[u8]) -> [Refusal; 2] {
        let image = &mut self.image;
        let version = self.edition.version().into();
        match &self.place {
            Place::Path => PROGRAMS.map(|program| program.find(image, string).refusal),
            Place::Name => PROGRAMS.map(|program| program.format(image, version, BLOCK, RESERVED, string, 0).refusal),
            Place::Stored(at, run) => {
                // Clears what a longer string has left; the zero behind this one ends the name.
                image[*at..at + 5].fill(0);
                image[*at..at + string.len()].copy_from_slice(string);
                self.edition.seal(&mut image[run.clone()]);
                PROGRAMS.map(|program| program.open(image, &mut [0; 51]).refusal)
            }
        }
    }
}

/// The smallest volume, on which a call is quick.
const BYTES: usize = 1024;
const BLOCK: u64 = 256;
const RESERVED: u64 = 2;
/// Bytes of the name before the string that lies across two slots: two of it, or one in edition 1.10, are in the first.
const BEFORE: usize = 28;

fn ways() -> Result<Vec<Way>, String> {
    let edition = Edition::V1_0;
    let image = volume(edition)?;
    let way = |title: &str, place, wanted: Wanted| Way { title: title.to_string(), edition, place, image: image.clone(), wanted };
    let mut ways = vec![way("path argument", Place::Path, path_argument), way("name argument", Place::Name, name_argument)];
    ways.extend(stored_ways(Edition::V1_0, "1.0")?);
    ways.extend(stored_ways(Edition::V1_10, "1.10")?);
    Ok(ways)
}

/// The ways in which a volume of the edition stores the string.
fn stored_ways(edition: Edition, named: &str) -> Result<[Way; 3], String> {
    let way = |title: &str, image, at, run, wanted: Wanted| {
        Way { title: format!("{title} of {named}"), edition, place: Place::Stored(at, run), image, wanted }
    };
    let identifier = BYTES - 64..BYTES;
    let (deleted, deleted_at, deleted_run) = volume_with(edition, b"n", DELETED_FILE)?;
    let (live, live_at, live_run) = volume_with(edition, &[b'n'; BEFORE + 4], FILE)?;
    let of_deleted: Wanted = if edition.keeps_deleted() { deleted_stored } else { not_judged };
    Ok([
        way("volume name", volume(edition)?, identifier.start + VOLUME_NAME_AT, identifier, volume_name_stored),
        way("deleted name", deleted, deleted_at, deleted_run, of_deleted),
        way("live name across slots", live, live_at + BEFORE, live_run, live_stored),
    ])
}

fn volume(edition: Edition) -> Result<Vec<u8>, String> {
    let mut image = vec![0; BYTES];
    accepted(second::format(&mut image, edition.version().into(), BLOCK, RESERVED, b"", 0))?;
    Ok(image)
}

/// A volume with one entry, an empty file of this kind, where the file's name lies, and its run.
fn volume_with(edition: Edition, path: &[u8], kind: u8) -> Result<(Vec<u8>, usize, Range<usize>), String> {
    let mut image = volume(edition)?;
    accepted(second::create_file(&mut image, path, 0, b""))?;
    // The file has made the index larger, so its run lies between the marker and the identifier.
    let name = edition.entry_field(FILE_NAME_AT);
    let slots = 1 + usize::from(path.len() >= 64 - name);
    let run = BYTES - 64 - 64 * slots..BYTES - 64;
    image[run.start] = kind;
    Ok((image, run.start + name, run))
}

fn accepted(written: Written) -> Result<(), String> {
    match written.refusal {
        0 => Ok(()),
        refusal => Err(format!("the volume to judge on was refused with {refusal}")),
    }
}

// ---- the third judge

fn code_allowed(code: char) -> bool {
    !matches!(code, '\0'..='\x1F' | '\x7F'..='\u{A0}' | '"' | '*' | ':' | '<' | '>' | '?' | '\\')
}

/// The text that these bytes are, if Rust reads them and the rule allows each code.
fn text(bytes: &[u8]) -> Option<&str> {
    std::str::from_utf8(bytes).ok().filter(|text| text.chars().all(code_allowed))
}

fn path_allowed(bytes: &[u8]) -> bool {
    text(bytes).is_some_and(|text| text.split('/').all(|part| !matches!(part, "" | "." | "..")))
}

fn name_allowed(bytes: &[u8]) -> bool {
    text(bytes).is_some_and(|text| !text.contains('/'))
}

fn until_zero(bytes: &[u8]) -> &[u8] {
    bytes.split(|byte| *byte == 0).next().unwrap_or_default()
}

fn unless(allowed: bool, refusal: Refusal) -> Refusal {
    if allowed {
        SUCCESS
    } else {
        refusal
    }
}

/// No path is live on that volume.
fn path_argument(string: &[u8]) -> Refusal {
    if path_allowed(string) {
        NOT_LIVE
    } else {
        BAD_NAME
    }
}

fn name_argument(string: &[u8]) -> Refusal {
    unless(name_allowed(string), BAD_NAME)
}

fn volume_name_stored(string: &[u8]) -> Refusal {
    unless(name_allowed(until_zero(string)), INDEX)
}

fn deleted_stored(string: &[u8]) -> Refusal {
    unless(path_allowed(until_zero(string)), INDEX)
}

/// What is deleted is unused slots.
fn not_judged(_: &[u8]) -> Refusal {
    SUCCESS
}

/// There is no directory for a path of several parts.
fn live_stored(string: &[u8]) -> Refusal {
    let string = until_zero(string);
    let mut path = [b'n'; BEFORE + 4];
    path[BEFORE..BEFORE + string.len()].copy_from_slice(string);
    let path = &path[..BEFORE + string.len()];
    if !path_allowed(path) {
        return INDEX;
    }
    unless(!path.contains(&b'/'), PATHS)
}
