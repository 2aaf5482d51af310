//! The report: what the entries of many images take, added up by kind, and the program that is asked with the names of
//! the images' files.

use crate::answer::{Read, Written};
use crate::index::{DELETED_DIRECTORY, DELETED_FILE, DIRECTORY, FILE, UNUSABLE, UNUSED};
use crate::query;
use crate::refusal::{self, Refusal};
use crate::regions;
use crate::volume::Volume;
use std::ffi::OsStr;
use std::fs::File;
use std::io::{self, Read as _};
use std::os::unix::ffi::OsStrExt;

/// The numbers of a report: three sums of each kind, the unread count, and how often each of refusals 1 to 8 was met.
pub const NUMBERS: usize = 27;
/// The place of the unread count; the refusals stand behind it by their numbers.
pub const UNREAD: usize = 18;
/// The most bytes an image may have here.
pub const MOST_INPUT: usize = 65_536;
/// Room for the text of any report; a lent output has so many bytes at least.
pub const LEAST_ROOM: usize = 1_024;
/// The lines that the program uses at most, and the bytes that a name has at most.
pub const MOST_LINES: usize = 1_000;
pub const MOST_NAME: usize = 255;

/// What is read of the program's input at a time.
pub const PIECE: u64 = 4_096;

/// The kinds in the order of their sums, with the words of their lines.
const KINDS: [(u8, &str); 6] = [
    (FILE, "file"),
    (DELETED_FILE, "deleted-file"),
    (DIRECTORY, "dir"),
    (DELETED_DIRECTORY, "deleted-dir"),
    (UNUSABLE, "unusable"),
    (UNUSED, "unused"),
];

/// Slots, blocks and bytes of each kind.
type Sums = [[u64; 3]; KINDS.len()];

/// Counts an image in a report; the answer is the image's own unless the report is too short to count anything.
pub fn report_add(image: &[u8], report: &mut [u64]) -> Written {
    let Some(numbers) = report.get_mut(..NUMBERS) else {
        return Written { refusal: refusal::OUTPUT_SHORT };
    };
    let sums = sums(image);
    match &sums {
        Ok(sums) => numbers.iter_mut().zip(sums.as_flattened()).for_each(|(number, sum)| raise(number, *sum)),
        Err(refusal) => raise(&mut numbers[UNREAD + usize::from(*refusal)], 1),
    }
    sums.map(|_| ()).into()
}

/// Numbers at their end start again from 0.
fn raise(number: &mut u64, more: u64) {
    *number = number.wrapping_add(more);
}

fn sums(image: &[u8]) -> Result<Sums, Refusal> {
    if image.len() > MOST_INPUT {
        return Err(refusal::IMAGE_LENGTH);
    }
    let Volume { super_block, index, .. } = Volume::judge(image)?;
    let mut sums = Sums::default();
    for entry in &index.entries {
        let blocks = regions::held(entry, super_block.geometry.edition).map_or(0, |region| region.blocks());
        add(&mut sums, entry.kind, [entry.slots, blocks, entry.length]);
    }
    add(&mut sums, UNUSED, [index.unused.len() as u64, 0, 0]);
    Ok(sums)
}

fn add(sums: &mut Sums, kind: u8, more: [u64; 3]) {
    let of_kind = sums.iter_mut().zip(KINDS).filter(|(_, (other, _))| *other == kind).flat_map(|(sums, _)| sums);
    of_kind.zip(more).for_each(|(sum, more)| raise(sum, more));
}

/// Puts the text of a report at the start of `output`.
pub fn report_text(report: &[u64], output: &mut [u8]) -> Read {
    let short = Read { refusal: refusal::OUTPUT_SHORT, length: 0 };
    let Some(numbers) = report.get(..NUMBERS).filter(|_| output.len() >= LEAST_ROOM) else { return short };
    let text = text(numbers);
    match query::lend(output, text.as_bytes()) {
        Ok(()) => Read { refusal: 0, length: text.len() as u64 },
        Err(refusal) => Read { refusal, length: 0 },
    }
}

/// A line for each kind, one for the refusals that occurred, and one for the unread count.
fn text(numbers: &[u64]) -> String {
    let mut text = String::new();
    for ((_, word), sums) in KINDS.iter().zip(numbers.chunks(3)) {
        let sums: String = sums.iter().map(|sum| format!(" {sum}")).collect();
        text += &format!("{word}{sums}\n");
    }
    let refused = numbers[UNREAD..].iter().enumerate().skip(1).filter(|(_, count)| **count > 0);
    let refused: String = refused.map(|(number, count)| format!(" {number}:{count}")).collect();
    text + &format!("refused{refused}\nunread {}\n", numbers[UNREAD])
}

/// Input as lines, taken piece by piece. Of a line no more is kept than shows whether it is a name, and of the lines
/// past the last that is used nothing.
#[derive(Clone, Debug, Default)]
pub struct Lines {
    line: Vec<u8>,
    ended: usize,
}

impl Lines {
    /// Whether no further line is used.
    pub fn are_all(&self) -> bool {
        self.ended == MOST_LINES
    }

    /// The bytes that there is room for in what is kept of a line.
    pub fn room(&self) -> usize {
        self.line.capacity()
    }

    /// Tells of each line that ends in this piece: its name, or nothing where it is none.
    pub fn take(&mut self, piece: &[u8], mut tell: impl FnMut(Option<&[u8]>)) {
        for byte in piece {
            if self.are_all() {
                return;
            }
            match byte {
                b'\n' => self.end_line(&mut tell),
                // One byte too many says that it is no name.
                _ if self.line.len() <= MOST_NAME => self.line.push(*byte),
                _ => {}
            }
        }
    }

    /// Tells of what follows the last newline, if that has bytes.
    pub fn end(&mut self, tell: impl FnMut(Option<&[u8]>)) {
        if !self.line.is_empty() {
            self.end_line(tell);
        }
    }

    fn end_line(&mut self, mut tell: impl FnMut(Option<&[u8]>)) {
        let named = (1..=MOST_NAME).contains(&self.line.len()) && !self.line.contains(&0);
        tell(named.then_some(&self.line));
        self.line.clear();
        self.ended += 1;
    }
}

/// The whole output of the program for names given as standard input, which ends where it cannot be read further.
pub fn report_of(mut input: impl io::Read) -> Vec<u8> {
    let mut report = [0; NUMBERS];
    let mut lines = Lines::default();
    while !lines.are_all() {
        let mut piece = Vec::new();
        // What was read before an error is in the piece.
        let read = input.by_ref().take(PIECE).read_to_end(&mut piece);
        lines.take(&piece, |name| add_line(name, &mut report));
        if read.is_err() || piece.is_empty() {
            break;
        }
    }
    lines.end(|name| add_line(name, &mut report));
    text(&report).into_bytes()
}

/// Counts the file of a line. What cannot be read, a line that is no name among it, is unread.
fn add_line(name: Option<&[u8]>, report: &mut [u64; NUMBERS]) {
    match name.and_then(|name| image_of(name).ok()) {
        Some(image) => drop(report_add(&image, report)),
        None => raise(&mut report[UNREAD], 1),
    }
}

/// The bytes of a file; of a long one only as many as show that it is too long. A directory can be opened but not read.
fn image_of(name: &[u8]) -> io::Result<Vec<u8>> {
    let mut image = Vec::new();
    File::open(OsStr::from_bytes(name))?.take(MOST_INPUT as u64 + 1).read_to_end(&mut image)?;
    Ok(image)
}
