//! Text for names: allowed characters of every width, and what no name may hold.

use crate::xorshift::Xorshift;

/// The least and the greatest code of each width that text is made of: letters, then all that are allowed, the
/// surrogates still to be passed over.
const CODES: [(u32, u32); 4] = [(0x61, 0x7A), (0xA1, 0x7FF), (0x800, 0xFFFF), (0x1_0000, 0x10_FFFF)];
/// The edges of the table and of the rule, and codes whose tails look like a separator, a dot or a refused code.
const EDGES: [&[u32]; 4] = [
    &[0x20, 0x21, 0x23, 0x40, 0x5D, 0x7E],
    &[0xA1, 0xAE, 0xAF, 0xBF, 0xC0, 0xE0, 0xE9, 0x12F, 0x7FF],
    &[0x800, 0xFFF, 0x1000, 0x2028, 0x20AC, 0xCFFF, 0xD000, 0xD7FF, 0xE000, 0xFEFF, 0xFFFF],
    &[0x1_0000, 0x1_F600, 0x3_FFFF, 0x4_0000, 0xF_FFFF, 0x10_0000, 0x10_FFFF],
];
const REFUSED: [u32; 18] =
    [0x01, 0x1F, 0x22, 0x2A, 0x3A, 0x3C, 0x3E, 0x3F, 0x5C, 0x7F, 0x80, 0x80, 0x81, 0x85, 0x9F, 0x9F, 0xA0, 0xA0];
/// Codes past the last one, in the width that could hold them.
const BEYOND: [(u32, usize); 7] =
    [(0x11_0000, 4), (0x13_FFFF, 4), (0x14_0000, 4), (0x1F_FFFF, 4), (0x20_0000, 5), (0x3FF_FFFF, 5), (0x400_0000, 6)];

/// The bytes of a code in a form of `width` bytes, which may be wider than the code needs.
fn form(code: u32, width: usize) -> Vec<u8> {
    if width == 1 {
        return vec![code as u8];
    }
    let bits = |place: usize| (code >> (6 * place)) as u8;
    let lead = !(0xFF >> width) | bits(width - 1);
    let tails = (0..width - 1).rev().map(|place| 0x80 | bits(place) & 0x3F);
    std::iter::once(lead).chain(tails).collect()
}

/// An allowed character of 1 to 4 bytes.
pub fn character(rng: &mut Xorshift, width: usize) -> Vec<u8> {
    let (least, most) = CODES[width - 1];
    let code = match least + rng.below(u64::from(most - least) + 1) as u32 {
        _ if rng.chance(40) => rng.pick(EDGES[width - 1]),
        surrogate @ 0xD800..=0xDFFF => surrogate - 0x800,
        code => code,
    };
    form(code, width)
}

/// An allowed character of 2 to 4 bytes.
fn wide(rng: &mut Xorshift) -> Vec<u8> {
    let width = 2 + rng.below(3) as usize;
    character(rng, width)
}

/// Exactly `length` bytes of characters of one width, as far as it fits, or of all widths.
pub fn of_length(rng: &mut Xorshift, length: usize) -> Vec<u8> {
    let only = rng.pick(&[None, None, None, Some(2), Some(3), Some(4)]);
    let mut text = Vec::new();
    while text.len() < length {
        let width = only.unwrap_or(1 + rng.below(4) as usize).min(length - text.len());
        text.extend(character(rng, width));
    }
    text
}

/// A few characters, one at least.
pub fn few(rng: &mut Xorshift) -> Vec<u8> {
    let length = 1 + rng.below(9) as usize;
    of_length(rng, length)
}

/// Text with a character that lies across byte `end`.
pub fn across(rng: &mut Xorshift, end: usize) -> Vec<u8> {
    let character = wide(rng);
    let before = 1 + rng.below(character.len() as u64 - 1) as usize;
    let after = rng.below(20) as usize;
    [of_length(rng, end.saturating_sub(before)), character, of_length(rng, after)].concat()
}

/// Exactly `length` bytes that end within a character.
pub fn cut_off(rng: &mut Xorshift, length: usize) -> Vec<u8> {
    let mut last = wide(rng);
    let kept = 1 + rng.below(last.len() as u64 - 1) as usize;
    last.truncate(kept.min(length));
    [of_length(rng, length - last.len()), last].concat()
}

/// A fault with text before and behind it, `around` bytes in all.
pub fn faulty(rng: &mut Xorshift, around: usize) -> Vec<u8> {
    let before = rng.below(around as u64 + 1) as usize;
    [of_length(rng, before), fault(rng), of_length(rng, around - before)].concat()
}

/// A refused code or ill-formed bytes.
pub fn fault(rng: &mut Xorshift) -> Vec<u8> {
    match rng.below(10) {
        0 | 1 => {
            let code = rng.pick(&REFUSED);
            form(code, if code < 0x80 { 1 } else { 2 })
        }
        2 | 3 => overlong(rng),
        4 => form(0xD800 + rng.pick(&[0, 1, 0x2FF, 0x3FF, 0x400, 0x7FE, 0x7FF]), 3),
        5 => {
            let (code, width) = rng.pick(&BEYOND);
            if rng.chance(80) {
                form(code, width)
            } else {
                vec![rng.pick(&[0xFE, 0xFF])]
            }
        }
        6 => (0..1 + rng.below(3)).map(|_| 0x80 + rng.below(0x40) as u8).collect(),
        7 | 8 => {
            let next = rng.pick(&[b"".as_slice(), b"", b"a", b"/", b"/a", b".", b"\xc3\xa9", b"\xf0"]);
            let length = 1 + rng.below(3) as usize;
            [cut_off(rng, length).as_slice(), next].concat()
        }
        _ => wrong_tail(rng),
    }
}

/// A code in a form wider than it needs; separators and dots among them, which must not slip through.
fn overlong(rng: &mut Xorshift) -> Vec<u8> {
    let width = 2 + rng.below(3) as usize;
    let over = [0x80, 0x800, 0x1_0000][width - 2];
    let some = rng.below(over) as u32;
    let code = rng.pick(&[0, 0x2E, 0x2F, 0x41, 0x7F, over as u32 - 1, some, some]);
    form(code, width)
}

/// A character with one tail that is none.
fn wrong_tail(rng: &mut Xorshift) -> Vec<u8> {
    let mut bytes = wide(rng);
    let place = 1 + rng.below(bytes.len() as u64 - 1) as usize;
    bytes[place] = rng.pick(&[0x20, b'/', b'A', 0x7E, 0x7F, 0xC0, 0xC3, 0xFF]);
    bytes
}

/// The places of a name that belong to characters of several bytes.
pub fn wide_places(name: &[u8]) -> Vec<usize> {
    (0..name.len()).filter(|place| name[*place] >= 0x80).collect()
}
