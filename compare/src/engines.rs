//! The engines for shared blocks behind their C interface. They are a static library of their own: no call of the library goes through them.

use second::{Tabled, TableRegion as Region, Written};

#[repr(C)]
struct TableAnswer {
    answer: u32,
    regions: usize,
}

extern "C" {
    fn regions_in_table(image: *const u8, image_len: usize, table: *mut Region, table_len: usize) -> TableAnswer;
    fn regions_apart(image: *const u8, image_len: usize) -> u32;
    fn regions_apart_plainly(image: *const u8, image_len: usize) -> u32;
}

/// Over a lent table.
pub fn in_table(image: &[u8], table: &mut [Region]) -> Tabled {
    let a = unsafe { regions_in_table(image.as_ptr(), image.len(), table.as_mut_ptr(), table.len()) };
    Tabled { answer: a.answer as u8, regions: a.regions as u64 }
}

/// Over a table of its own.
pub fn apart(image: &[u8]) -> Written {
    Written { refusal: unsafe { regions_apart(image.as_ptr(), image.len()) } as u8 }
}

/// Each region against every other.
pub fn apart_plainly(image: &[u8]) -> Written {
    Written { refusal: unsafe { regions_apart_plainly(image.as_ptr(), image.len()) } as u8 }
}
