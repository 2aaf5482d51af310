//! Little-endian fields and bounded writes. Out-of-range reads give 0 and out-of-range writes do
//! nothing, so that no caller can panic here.

/// The `N` bytes at `at`, zeros when they do not all exist.
fn raw<const N: usize>(bytes: &[u8], at: usize) -> [u8; N] {
    let mut found = [0; N];
    if let Some(part) = at.checked_add(N).and_then(|end| bytes.get(at..end)) {
        found.copy_from_slice(part);
    }
    found
}

pub fn get_u8(bytes: &[u8], at: usize) -> u8 {
    raw::<1>(bytes, at)[0]
}

pub fn get_u32(bytes: &[u8], at: usize) -> u32 {
    u32::from_le_bytes(raw(bytes, at))
}

pub fn get_u64(bytes: &[u8], at: usize) -> u64 {
    u64::from_le_bytes(raw(bytes, at))
}

pub fn get_i64(bytes: &[u8], at: usize) -> i64 {
    i64::from_le_bytes(raw(bytes, at))
}

/// Copies `new` to `at` when it fits there whole.
pub fn put(bytes: &mut [u8], at: usize, new: &[u8]) {
    if let Some(part) = at.checked_add(new.len()).and_then(|end| bytes.get_mut(at..end)) {
        part.copy_from_slice(new);
    }
}

/// The part of `bytes` before its first zero, or nothing when no byte is zero.
pub fn until_zero(bytes: &[u8]) -> Option<&[u8]> {
    let end = bytes.iter().position(|byte| *byte == 0)?;
    bytes.get(..end)
}

/// The sum of the bytes, modulo 256.
pub fn sum(bytes: &[u8]) -> u8 {
    bytes.iter().fold(0, |sum, byte| sum.wrapping_add(*byte))
}
