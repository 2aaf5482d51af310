//! The name rule on both sides of every edge: as arguments, in stored names of every kind, in the volume name.

mod common;

use common::*;
use second::names::{path_allowed, volume_name_allowed};
use second::{create_file, delete, delete_keep, find, format, list, listing_text, open, reclaim};

const A_PAGE: &[u8] = "À la page".as_bytes();
const KINDS: [u8; 4] = [0x11, 0x12, 0x19, 0x1A];

/// The first and last characters of each width and of each row of the table, and the neighbours of refused codes.
#[rustfmt::skip]
const GOOD: [&[u8]; 28] = [
    // U+0020, U+0021, U+007E
    b"\x20", b"\x21", b"\x7E",
    // U+00A1, U+00AF, U+00BF, U+00C0, U+00E0, U+07FF
    b"\xC2\xA1", b"\xC2\xAF", b"\xC2\xBF", b"\xC3\x80", b"\xC3\xA0", b"\xDF\xBF",
    // U+0800, U+0FFF, U+1000, U+2028, U+CFFF, U+D000, U+D7FF, U+E000, U+EFFF, U+FDD0, U+FEFF, U+FFFF
    b"\xE0\xA0\x80", b"\xE0\xBF\xBF", b"\xE1\x80\x80", b"\xE2\x80\xA8", b"\xEC\xBF\xBF", b"\xED\x80\x80",
    b"\xED\x9F\xBF", b"\xEE\x80\x80", b"\xEE\xBF\xBF", b"\xEF\xB7\x90", b"\xEF\xBB\xBF", b"\xEF\xBF\xBF",
    // U+10000, U+3FFFF, U+40000, U+FFFFF, U+100000, U+10FFFF
    b"\xF0\x90\x80\x80", b"\xF0\xBF\xBF\xBF", b"\xF1\x80\x80\x80", b"\xF3\xBF\xBF\xBF", b"\xF4\x80\x80\x80",
    b"\xF4\x8F\xBF\xBF",
    // A second character behind a first.
    b"\xC3\x80\xC3\x80",
];

/// What no name may hold, whatever stands around it.
#[rustfmt::skip]
const BAD: [&[u8]; 72] = [
    // Codes: U+0001, U+001F, U+007F, U+0080, U+0081, U+009F, U+00A0, and the seven marks.
    b"\x01", b"\x1F", b"\x7F", b"\xC2\x80", b"\xC2\x81", b"\xC2\x9F", b"\xC2\xA0",
    b"\"", b"*", b":", b"<", b">", b"?", b"\\",
    // Tails without a lead, one behind a whole character among them.
    b"\x80", b"\x8F", b"\x90", b"\x9F", b"\xA0", b"\xA1", b"\xBF", b"\xC3\x80\x80", b"\xE2\x82\xAC\x80",
    b"\xF0\x9F\x98\x80\x80",
    // Overlong: U+0000, `.`, `/`, U+007F in two bytes, U+0000, `/`, U+07FF in three, U+0000, `/`, U+FFFF in four.
    b"\xC0\x80", b"\xC0\xAE", b"\xC0\xAF", b"\xC1\xBF", b"\xE0\x80\x80", b"\xE0\x80\xAF", b"\xE0\x9F\xBF",
    b"\xF0\x80\x80\x80", b"\xF0\x80\x80\xAF", b"\xF0\x8F\xBF\xBF",
    // Surrogates: U+D800, U+DBFF, U+DC00, U+DFFF, and a pair.
    b"\xED\xA0\x80", b"\xED\xAF\xBF", b"\xED\xB0\x80", b"\xED\xBF\xBF", b"\xED\xA0\xBD\xED\xB8\x80",
    // Above U+10FFFF, and leads of forms that are no more.
    b"\xF4\x90\x80\x80", b"\xF4\xBF\xBF\xBF", b"\xF5\x80\x80\x80", b"\xF7\xBF\xBF\xBF", b"\xF8\x88\x80\x80\x80",
    b"\xFB\xBF\xBF\xBF\xBF", b"\xFC\x84\x80\x80\x80\x80", b"\xFD\xBF\xBF\xBF\xBF\xBF", b"\xFE", b"\xFF",
    // Cut off.
    b"\xC2", b"\xC3", b"\xDF", b"\xE0", b"\xE0\xA0", b"\xE2", b"\xE2\x82", b"\xEF\xBF", b"\xF0", b"\xF0\x9F",
    b"\xF0\x9F\x98", b"\xF4\x8F\xBF",
    // A tail that is none, on both sides of the tails, at each place.
    b"\xC3\x7E", b"\xC3\xC0", b"\xE2\x7E\xAC", b"\xE2\xC0\xAC", b"\xE2\x82\x7E", b"\xE2\x82\xC0", b"\xF0\x7E\x98\x80",
    b"\xF0\x9F\xC0\x80", b"\xF0\x9F\x98\x7E", b"\xC3/\x80", b"\xE2\x82/\xAC",
];

/// The text alone and at every place among others.
fn placed(text: &[u8]) -> Vec<Vec<u8>> {
    let around: [(&[u8], &[u8]); 6] =
        [(b"", b""), (b"a", b""), (b"", b"a"), (b"a", b"b"), (b"\xC3\x80", b""), (b"", b"\xF0\x9F\x98\x80")];
    around.iter().map(|(before, after)| [*before, text, *after].concat()).collect()
}

/// An image with a live directory `d` and one entry of this kind and name, which may be any bytes.
fn holding(kind: u8, name: &[u8]) -> Vec<u8> {
    let mut image = fresh(8192, 512, 1);
    assert_eq!(mkdir(&mut image, b"d"), 0);
    let stand_in = vec![b'x'; name.len()];
    let directory = matches!(kind, 0x11 | 0x19);
    let refused = if directory { mkdir(&mut image, &stand_in) } else { mkfile(&mut image, &stand_in, b"") };
    assert_eq!(refused, 0);
    let entry = entry_at(&image, &stand_in);
    put(&mut image, entry, &[kind]);
    put(&mut image, entry + if directory { 10 } else { 34 }, name);
    image
}

fn holding_volume_name(name: &[u8]) -> Vec<u8> {
    let mut image = fresh(8192, 512, 1);
    let identifier = image.len() - 64;
    put(&mut image, identifier + 12, &[0; 52]);
    put(&mut image, identifier + 12, name);
    image
}

fn formats(name: &[u8]) -> u8 {
    format(&mut [0; 1024], 0x10, 256, 2, name, 0).refusal
}

#[test]
fn arguments() {
    let mut image = fresh(8192, 512, 1);
    assert_eq!(mkdir(&mut image, b"d"), 0);
    for name in GOOD.into_iter().flat_map(placed) {
        assert_eq!(all_calls(&image, &name), [0, 11, 0, 11, 0, 0, 11, 11, 0], "{name:x?}");
        assert_eq!(all_calls(&image, &[b"d/", &name[..]].concat()), [0, 11, 0, 11, 0, 0, 11, 11, 0], "{name:x?}");
        assert_eq!(find(&image, &[&name[..], b"/d"].concat()).refusal, 11, "{name:x?}");
        assert_eq!(formats(&name), 0, "{name:x?}");
    }
    for name in BAD.into_iter().flat_map(placed) {
        assert_eq!(all_calls(&image, &name), [0, 10, 0, 10, 10, 10, 10, 10, 0], "{name:x?}");
        assert_eq!(all_calls(&image, &[b"d/", &name[..]].concat()), [0, 10, 0, 10, 10, 10, 10, 10, 0], "{name:x?}");
        assert_eq!(find(&image, &[&name[..], b"/d"].concat()).refusal, 10, "{name:x?}");
        assert_eq!(formats(&name), 10, "{name:x?}");
    }
}

#[test]
fn stored_names() {
    for kind in KINDS {
        for name in GOOD.into_iter().flat_map(placed) {
            assert_eq!(opens(&holding(kind, &name)), 0, "{kind:x} {name:x?}");
            assert_eq!(opens(&holding(kind, &[b"d/", &name[..]].concat())), 0, "{kind:x} {name:x?}");
        }
        for name in BAD.into_iter().flat_map(placed) {
            assert_eq!(opens(&holding(kind, &name)), 6, "{kind:x} {name:x?}");
            assert_eq!(opens(&holding(kind, &[b"d/", &name[..]].concat())), 6, "{kind:x} {name:x?}");
        }
    }
}

#[test]
fn stored_volume_names() {
    for name in GOOD.into_iter().flat_map(placed) {
        assert_eq!(opens(&holding_volume_name(&name)), 0, "{name:x?}");
    }
    for name in BAD.into_iter().flat_map(placed) {
        assert_eq!(opens(&holding_volume_name(&name)), 6, "{name:x?}");
    }
}

#[test]
fn the_branch_at_the_square() {
    let mut image = vec![0; 8192];
    assert_eq!(format(&mut image, 0x10, 512, 1, A_PAGE, 0).refusal, 0);
    let mut output = [0xEE; 11];
    assert_eq!(open(&image, &mut output).name_length, 10);
    assert_eq!((&output[..10], output[10]), (A_PAGE, 0xEE));
    assert_eq!(create_file(&mut image, A_PAGE, 0, b"abc").refusal, 0);
    assert_eq!(list(&image, 0, &mut output).path_length, 10);
    assert_eq!((&output[..10], output[10]), (A_PAGE, 0xEE));
    assert_eq!(listing_text(&image), "À la page\nF 3 1970-01-01T00:00:00Z À la page\nlive 1 held 1\n".as_bytes());
}

#[test]
fn characters_across_slots() {
    let ends = [(0x11, [54, 118, 182, 246]), (0x12, [30, 94, 158, 222])];
    for (kind, end) in ends.into_iter().flat_map(|(kind, ends)| ends.map(|end| (kind, end))) {
        for character in GOOD.into_iter().filter(|character| character[0] > 0x7F) {
            for before in 1..character.len() {
                across_slots(kind, &[&vec![b'n'; end - before], character, b"n"].concat(), end);
            }
        }
    }
}

/// The name's byte at `end` is the first of a slot, and a tail of a character or the next one's lead.
fn across_slots(kind: u8, name: &[u8], end: usize) {
    let mut image = fresh(8192, 512, 1);
    let refused = if kind == 0x11 { mkdir(&mut image, name) } else { mkfile(&mut image, name, b"") };
    assert_eq!(refused, 0, "{end} {name:x?}");
    assert_eq!(find(&image, name).kind, kind);
    let entry = entry_at(&image, name);
    let next = entry + end + if kind == 0x11 { 10 } else { 34 };
    assert_eq!((next % 64, image[next]), (0, name[end]));
    let with = |byte: u8| {
        let mut copy = image.clone();
        put(&mut copy, next, &[byte]);
        [image[entry], image[entry] + 8].map(|kind| {
            put(&mut copy, entry, &[kind]);
            opens(&copy)
        })
    };
    // Another byte there, or the zero that cuts the character off, unless it cuts between two.
    let between = name[end] >= 0xC0;
    assert_eq!(with(0), if between { [0; 2] } else { [6; 2] }, "{end} {name:x?}");
    assert_eq!([with(0x7E), with(0xFF)], [[6; 2]; 2], "{end} {name:x?}");
    for call in [delete, delete_keep] {
        let mut image = image.clone();
        assert_eq!(call(&mut image, name, 1).refusal, 0);
        assert_eq!((find(&image, name).refusal, reclaim(&mut image, 1).refusal, opens(&image)), (11, 0, 0));
    }
}

#[test]
fn characters_cut_off_by_the_zero() {
    for character in GOOD {
        for cut in 1..character.len() {
            let whole = character[cut] >= 0xC0;
            let expected = if whole { 0 } else { 6 };
            // Nothing behind the zero, or the tails that are left, which no one judges.
            let mut inside = character.to_vec();
            inside[cut] = 0;
            for end in [&character[..cut], &inside] {
                let name = [b"a", end].concat();
                assert_eq!(KINDS.map(|kind| opens(&holding(kind, &name))), [expected; 4], "{name:x?}");
                assert_eq!(opens(&holding_volume_name(&name)), expected, "{name:x?}");
            }
        }
    }
}

#[test]
fn lengths_count_bytes() {
    for character in GOOD {
        let long = |length: usize| [&vec![b'n'; length - character.len()], character].concat();
        let creates =
            |path: &[u8]| [mkfile(&mut fresh(8192, 512, 1), path, b""), mkdir(&mut fresh(8192, 512, 1), path)];
        assert_eq!([creates(&long(285)), creates(&long(286))], [[0; 2], [10; 2]]);
        assert_eq!([formats(&long(51)), formats(&long(52))], [0, 10]);
        assert_eq!(find(&fresh(8192, 512, 1), &long(286)).refusal, 11);
        assert_eq!(opens(&holding_volume_name(&long(51))), 0);
        // Without its zero, or with the zero in place of the last tail.
        assert_eq!(opens(&holding_volume_name(&long(52))), 6);
        let cut_off = if character.len() > 1 { (10, 6) } else { (0, 0) };
        assert_eq!(creates(&long(286)[..285]), [cut_off.0; 2], "{character:x?}");
        assert_eq!(formats(&long(52)[..51]), cut_off.0, "{character:x?}");
        assert_eq!(opens(&holding_volume_name(&long(52)[..51])), cut_off.1, "{character:x?}");
        assert_eq!(KINDS.map(|kind| opens(&holding(kind, &long(286)[..285]))), [cut_off.1; 4], "{character:x?}");
    }
}

#[test]
fn nothing_is_normalised() {
    let mut image = fresh(8192, 512, 1);
    // One letter in two ways, its lower case, a ligature and its letters, and a mark's wide form.
    for path in ["À", "A\u{300}", "à", "\u{FB01}", "fi", "\u{FF1A}", "\u{FEFF}A", "A"] {
        assert_eq!(find(&image, path.as_bytes()).refusal, 11, "{path}");
        assert_eq!(mkfile(&mut image, path.as_bytes(), b""), 0, "{path}");
        assert_eq!(find(&image, path.as_bytes()).refusal, 0, "{path}");
    }
    // Half a letter is no shorter name.
    assert_eq!(find(&image, b"\xC3").refusal, 10);
}

/// Rust's own reading of UTF-8 with the rule on codes, as another opinion.
fn text(bytes: &[u8]) -> Option<&str> {
    let refused = |code: char| matches!(code, '\0'..='\x1F' | '\x7F'..='\u{A0}') || "\"*:<>?\\".contains(code);
    std::str::from_utf8(bytes).ok().filter(|text| !text.chars().any(refused))
}

fn agrees(bytes: &[u8]) {
    let text = text(bytes);
    let path = text.is_some_and(|text| text.split('/').all(|part| !["", ".", ".."].contains(&part)));
    assert_eq!(path_allowed(bytes), path, "{bytes:x?}");
    assert_eq!(volume_name_allowed(bytes), text.is_some_and(|text| !text.contains('/')), "{bytes:x?}");
}

#[test]
fn every_string_of_up_to_three_bytes() {
    for number in 0..1u32 << 24 {
        let [_, first, second, third] = number.to_be_bytes();
        agrees(&[first, second, third]);
    }
    for number in 0..=u16::MAX {
        agrees(&number.to_be_bytes());
    }
    (0..=u8::MAX).for_each(|byte| agrees(&[byte]));
    agrees(b"");
}

#[test]
fn every_code() {
    let mut buffer = [0; 4];
    for code in '\0'..=char::MAX {
        agrees(code.encode_utf8(&mut buffer).as_bytes());
    }
}

#[test]
fn four_bytes_at_the_edges() {
    let edges = b"\x00\x2F\x41\x7F\x80\x8F\x90\x9F\xA0\xBF\xC0\xC2\xDF\xE0\xED\xEF\xF0\xF3\xF4\xF5\xF7\xF8\xFF";
    for first in edges {
        for second in edges {
            for third in edges {
                edges.iter().for_each(|fourth| agrees(&[*first, *second, *third, *fourth]));
            }
        }
    }
}
