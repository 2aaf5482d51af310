//! Open on a volume with the longest name there can be: what a byte of a name costs.

use super::volumes::BYTES;
use super::{best, millis, PROGRAMS};
use second::store::Store;
use second::Edition;
use std::hint::black_box;

/// A directory of the longest name: it starts at 10 in the first slot and fills 255 more, its zero apart.
const RUN: usize = 256 * 64;
const NAME_AT: usize = 10;
const LONGEST: usize = RUN - NAME_AT - 1;
const ROUNDS: u32 = 200;
const NAMES: [(&str, &str); 4] =
    [("ASCII", "session-01234."), ("ASCII, mixed", "aZ0-bY9_c+X8 "), ("French", "prêté à l'été "), ("Japanese", "日本語")];

pub fn run() -> Result<String, String> {
    let mut text = format!("one name of {LONGEST} bytes or a few less, best of {ROUNDS}");
    for (names, pattern) in NAMES {
        let image = named_volume(pattern)?;
        for (program, store) in PROGRAMS {
            text += &format!("\n{program}, {names}: {}", judged(*store, &image));
        }
    }
    Ok(text)
}

/// The time of an open by name byte, or the refusal that ends it.
fn judged(store: &dyn Store, image: &[u8]) -> String {
    let refusal = store.open(image, &mut [0; 64]).refusal;
    match best(ROUNDS, || black_box(store.open(black_box(image), &mut [0; 64])).refusal == 0) {
        Ok(open) => format!("open {:.3} ms, {:.2} ns a byte", millis(open), open.as_secs_f64() * 1e9 / LONGEST as f64),
        Err(_) => format!("refused {refusal}"),
    }
}

/// A directory of so long a name is written by hand: a create takes no more than 285 bytes.
fn named_volume(pattern: &str) -> Result<Vec<u8>, String> {
    let mut image = vec![0; BYTES];
    if second::format(&mut image, Edition::V1_0.version().into(), 512, 1, b"BENCH", 0).refusal != 0 {
        return Err("format was refused".to_string());
    }
    let index = 64 + RUN + 64;
    let run = BYTES - index + 64;
    let name = pattern.repeat(LONGEST / pattern.len() + 1);
    let end = (0..=LONGEST).rfind(|end| name.is_char_boundary(*end)).unwrap_or(0);
    image[0x1A4..0x1AC].copy_from_slice(&(index as u64).to_le_bytes());
    image[BYTES - 128] = 0;
    image[run - 64] = 0x02;
    image[run] = 0x11;
    image[run + 1] = 255;
    image[run + NAME_AT..run + NAME_AT + end].copy_from_slice(&name.as_bytes()[..end]);
    Ok(image)
}
