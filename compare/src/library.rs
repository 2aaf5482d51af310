//! The proved library behind its C interface, as declared in `include/sfs.h`, and beside it the engines for shared blocks.

use crate::engines;
use second::store::Store;
use second::{Found, Opened, Read, TableRegion, Tabled, Written};

#[repr(C)]
struct Volume {
    refusal: u32,
    version: u32,
    edition: u32,
    total: u64,
    reserved: u64,
    block_length: u64,
    data_blocks: u64,
    index_bytes: u64,
    stamp: i64,
    volume_stamp: i64,
    name_length: u64,
}

#[repr(C)]
struct Entry {
    refusal: u32,
    kind: u32,
    slot: u64,
    start: u64,
    end: u64,
    length: u64,
    stamp: i64,
}

#[repr(C)]
struct Listed {
    refusal: u32,
    kind: u32,
    slot: u64,
    start: u64,
    end: u64,
    length: u64,
    stamp: i64,
    path_length: u64,
}

#[repr(C)]
struct Content {
    refusal: u32,
    length: u64,
}

#[repr(C)]
struct Records {
    refusal: u32,
    count: u64,
    length: u64,
    next: u64,
}

extern "C" {
    fn sfs_api() -> u32;
    fn sfs_format(
        image: *mut u8,
        image_len: usize,
        version: u64,
        bytes_per_block: u64,
        reserved: u64,
        name: *const u8,
        name_len: usize,
        stamp: i64,
    ) -> u32;
    fn sfs_open(image: *const u8, image_len: usize, out: *mut u8, out_len: usize) -> Volume;
    fn sfs_find(image: *const u8, image_len: usize, path: *const u8, path_len: usize) -> Entry;
    fn sfs_list(image: *const u8, image_len: usize, slot: u64, out: *mut u8, out_len: usize) -> Listed;
    fn sfs_list_all(image: *const u8, image_len: usize, slot: u64, out: *mut u8, out_len: usize) -> Records;
    fn sfs_read(image: *const u8, image_len: usize, path: *const u8, path_len: usize, out: *mut u8, out_len: usize) -> Content;
    fn sfs_create_file(
        image: *mut u8,
        image_len: usize,
        path: *const u8,
        path_len: usize,
        bytes: *const u8,
        bytes_len: usize,
        stamp: i64,
    ) -> u32;
    fn sfs_create_directory(image: *mut u8, image_len: usize, path: *const u8, path_len: usize, stamp: i64) -> u32;
    fn sfs_delete(image: *mut u8, image_len: usize, path: *const u8, path_len: usize, stamp: i64) -> u32;
    fn sfs_delete_keep(image: *mut u8, image_len: usize, path: *const u8, path_len: usize, stamp: i64) -> u32;
    fn sfs_restore(image: *mut u8, image_len: usize, path: *const u8, path_len: usize, stamp: i64) -> u32;
    fn sfs_reclaim(image: *mut u8, image_len: usize, stamp: i64) -> u32;
    fn sfs_listing(image: *const u8, image_len: usize, out: *mut u8, out_len: usize) -> Content;
    fn sfs_report_add(image: *const u8, image_len: usize, report: *mut u64, report_len: usize) -> u32;
    fn sfs_report_text(report: *const u64, report_len: usize, out: *mut u8, out_len: usize) -> Content;
}

/// The library's calls. Each pointer comes with the length of the slice it was taken from, and no two slices overlap.
#[derive(Clone, Copy, Debug, Default)]
pub struct Library;

fn written(refusal: u32) -> Written {
    Written { refusal: refusal as u8 }
}

fn content(a: Content) -> Read {
    Read { refusal: a.refusal as u8, length: a.length }
}

impl Store for Library {
    fn api(&self) -> u32 {
        unsafe { sfs_api() }
    }

    fn format(&self, image: &mut [u8], version: u64, block: u64, reserved: u64, name: &[u8], stamp: i64) -> Written {
        let (i, n) = (image.as_mut_ptr(), image.len());
        written(unsafe { sfs_format(i, n, version, block, reserved, name.as_ptr(), name.len(), stamp) })
    }

    fn open(&self, image: &[u8], out: &mut [u8]) -> Opened {
        let a = unsafe { sfs_open(image.as_ptr(), image.len(), out.as_mut_ptr(), out.len()) };
        Opened {
            refusal: a.refusal as u8,
            version: a.version as u8,
            total: a.total,
            reserved: a.reserved,
            block_length: a.block_length,
            data_blocks: a.data_blocks,
            index_bytes: a.index_bytes,
            stamp: a.stamp,
            volume_stamp: a.volume_stamp,
            name_length: a.name_length,
            edition: a.edition as u8,
        }
    }

    fn find(&self, image: &[u8], path: &[u8]) -> Found {
        let a = unsafe { sfs_find(image.as_ptr(), image.len(), path.as_ptr(), path.len()) };
        Found {
            refusal: a.refusal as u8,
            slot: a.slot,
            kind: a.kind as u8,
            start: a.start,
            end: a.end,
            length: a.length,
            stamp: a.stamp,
        }
    }

    fn list(&self, image: &[u8], slot: u64, out: &mut [u8]) -> second::Listed {
        let a = unsafe { sfs_list(image.as_ptr(), image.len(), slot, out.as_mut_ptr(), out.len()) };
        second::Listed {
            refusal: a.refusal as u8,
            slot: a.slot,
            kind: a.kind as u8,
            start: a.start,
            end: a.end,
            length: a.length,
            stamp: a.stamp,
            path_length: a.path_length,
        }
    }

    fn list_all(&self, image: &[u8], slot: u64, out: &mut [u8]) -> second::Records {
        let a = unsafe { sfs_list_all(image.as_ptr(), image.len(), slot, out.as_mut_ptr(), out.len()) };
        second::Records { refusal: a.refusal as u8, count: a.count, length: a.length, next: a.next }
    }

    fn read(&self, image: &[u8], path: &[u8], out: &mut [u8]) -> Read {
        content(unsafe { sfs_read(image.as_ptr(), image.len(), path.as_ptr(), path.len(), out.as_mut_ptr(), out.len()) })
    }

    fn create_file(&self, image: &mut [u8], path: &[u8], stamp: i64, bytes: &[u8]) -> Written {
        let (i, n) = (image.as_mut_ptr(), image.len());
        written(unsafe { sfs_create_file(i, n, path.as_ptr(), path.len(), bytes.as_ptr(), bytes.len(), stamp) })
    }

    fn create_directory(&self, image: &mut [u8], path: &[u8], stamp: i64) -> Written {
        written(unsafe { sfs_create_directory(image.as_mut_ptr(), image.len(), path.as_ptr(), path.len(), stamp) })
    }

    fn delete(&self, image: &mut [u8], path: &[u8], stamp: i64) -> Written {
        written(unsafe { sfs_delete(image.as_mut_ptr(), image.len(), path.as_ptr(), path.len(), stamp) })
    }

    fn delete_keep(&self, image: &mut [u8], path: &[u8], stamp: i64) -> Written {
        written(unsafe { sfs_delete_keep(image.as_mut_ptr(), image.len(), path.as_ptr(), path.len(), stamp) })
    }

    fn restore(&self, image: &mut [u8], path: &[u8], stamp: i64) -> Written {
        written(unsafe { sfs_restore(image.as_mut_ptr(), image.len(), path.as_ptr(), path.len(), stamp) })
    }

    fn reclaim(&self, image: &mut [u8], stamp: i64) -> Written {
        written(unsafe { sfs_reclaim(image.as_mut_ptr(), image.len(), stamp) })
    }

    fn listing(&self, image: &[u8], out: &mut [u8]) -> Read {
        content(unsafe { sfs_listing(image.as_ptr(), image.len(), out.as_mut_ptr(), out.len()) })
    }

    fn report_add(&self, image: &[u8], report: &mut [u64]) -> Written {
        written(unsafe { sfs_report_add(image.as_ptr(), image.len(), report.as_mut_ptr(), report.len()) })
    }

    fn report_text(&self, report: &[u64], out: &mut [u8]) -> Read {
        content(unsafe { sfs_report_text(report.as_ptr(), report.len(), out.as_mut_ptr(), out.len()) })
    }

    fn regions(&self, image: &[u8], table: &mut [TableRegion]) -> Tabled {
        engines::in_table(image, table)
    }

    fn sharing(&self, image: &[u8]) -> Written {
        engines::apart(image)
    }

    fn sharing_plain(&self, image: &[u8]) -> Written {
        engines::apart_plainly(image)
    }
}
