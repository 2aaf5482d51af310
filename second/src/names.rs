//! The rules for names: characters, paths and volume names.
//!
//! A name is UTF-8 by RFC 3629, read here by its table of code ranges; lengths and comparisons stay in bytes.

/// The longest path create takes, in bytes.
pub const MOST_PATH: usize = 285;
/// The longest volume name, in bytes; its field has one more for the zero.
pub const MOST_VOLUME_NAME: usize = 51;

const HIGHEST_CODE: u32 = 0x10_FFFF;

/// No control characters, no non-breaking space, none of `" * : < > ? \`.
fn code_allowed(code: u32) -> bool {
    !matches!(code, 0x00..=0x1F | 0x22 | 0x2A | 0x3A | 0x3C | 0x3E | 0x3F | 0x5C | 0x7F..=0xA0)
}

/// The code of the first character and its width in bytes, or nothing when the text starts with none.
fn first_code(text: &[u8]) -> Option<(u32, usize)> {
    let (top, width, least) = match *text.first()? {
        lead @ 0x00..=0x7F => (lead, 1, 0),
        lead @ 0xC0..=0xDF => (lead & 0x1F, 2, 0x80),
        lead @ 0xE0..=0xEF => (lead & 0x0F, 3, 0x800),
        lead @ 0xF0..=0xF7 => (lead & 0x07, 4, 0x1_0000),
        _ => return None,
    };
    let mut code = u32::from(top);
    for tail in text.get(1..width)? {
        if tail & 0xC0 != 0x80 {
            return None;
        }
        code = code << 6 | u32::from(tail & 0x3F);
    }
    // A code that a narrower form could hold is overlong.
    let is_character = (least..=HIGHEST_CODE).contains(&code) && !(0xD800..=0xDFFF).contains(&code);
    is_character.then_some((code, width))
}

/// Whether the byte is an allowed character of one byte, and so its own code.
fn plain(byte: u8) -> bool {
    byte < 0x80 && code_allowed(byte.into())
}

/// Whether these bytes are whole characters, all of them allowed.
fn text_allowed(text: &[u8]) -> bool {
    let mut rest = text;
    // Most names are ASCII, so runs of it are passed over quickly.
    while let Some(place) = rest.iter().position(|byte| !plain(*byte)) {
        match first_code(&rest[place..]) {
            Some((code, width)) if code_allowed(code) => rest = &rest[place + width..],
            _ => return false,
        }
    }
    true
}

/// Each part is text of its own, since a separator inside a character cuts it off.
/// Splitting the empty path gives one empty part, so it is refused with the others.
pub fn path_allowed(path: &[u8]) -> bool {
    path.split(|byte| *byte == b'/').all(part_allowed)
}

fn part_allowed(part: &[u8]) -> bool {
    !part.is_empty() && part != b"." && part != b".." && text_allowed(part)
}

/// A volume name is no path: it may be empty, `.` or `..`, but has no separator.
pub fn volume_name_allowed(name: &[u8]) -> bool {
    name.len() <= MOST_VOLUME_NAME && !name.contains(&b'/') && text_allowed(name)
}

/// The nearest leading path: everything before the last separator.
pub fn parent(path: &[u8]) -> Option<&[u8]> {
    let end = path.iter().rposition(|byte| *byte == b'/')?;
    path.get(..end)
}
