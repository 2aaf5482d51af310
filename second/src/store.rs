//! The calls as an interface, so that a script can be carried out on another store and the answers compared.

use crate::answer::{Found, Listed, Opened, Read, Records, Tabled, Written};
use crate::sharing::TableRegion;

/// The number of the interface, raised whenever a struct, an argument or what a call does changes.
pub const API: u32 = 2;

pub trait Store {
    fn api(&self) -> u32;
    fn format(
        &self,
        image: &mut [u8],
        version: u64,
        bytes_per_block: u64,
        reserved: u64,
        name: &[u8],
        stamp: i64,
    ) -> Written;
    fn open(&self, image: &[u8], output: &mut [u8]) -> Opened;
    fn find(&self, image: &[u8], path: &[u8]) -> Found;
    fn list(&self, image: &[u8], slot: u64, output: &mut [u8]) -> Listed;
    fn list_all(&self, image: &[u8], slot: u64, output: &mut [u8]) -> Records;
    fn read(&self, image: &[u8], path: &[u8], output: &mut [u8]) -> Read;
    fn create_file(&self, image: &mut [u8], path: &[u8], stamp: i64, bytes: &[u8]) -> Written;
    fn create_directory(&self, image: &mut [u8], path: &[u8], stamp: i64) -> Written;
    fn delete(&self, image: &mut [u8], path: &[u8], stamp: i64) -> Written;
    fn delete_keep(&self, image: &mut [u8], path: &[u8], stamp: i64) -> Written;
    fn restore(&self, image: &mut [u8], path: &[u8], stamp: i64) -> Written;
    fn reclaim(&self, image: &mut [u8], stamp: i64) -> Written;
    fn listing(&self, image: &[u8], output: &mut [u8]) -> Read;
    fn report_add(&self, image: &[u8], report: &mut [u64]) -> Written;
    fn report_text(&self, report: &[u64], output: &mut [u8]) -> Read;
    fn regions(&self, image: &[u8], table: &mut [TableRegion]) -> Tabled;
    fn sharing(&self, image: &[u8]) -> Written;
    fn sharing_plain(&self, image: &[u8]) -> Written;
}

/// This crate's own calls.
#[derive(Clone, Copy, Debug, Default)]
pub struct Own;

impl Store for Own {
    fn api(&self) -> u32 {
        API
    }

    fn format(
        &self,
        image: &mut [u8],
        version: u64,
        bytes_per_block: u64,
        reserved: u64,
        name: &[u8],
        stamp: i64,
    ) -> Written {
        crate::format(image, version, bytes_per_block, reserved, name, stamp)
    }

    fn open(&self, image: &[u8], output: &mut [u8]) -> Opened {
        crate::open(image, output)
    }

    fn find(&self, image: &[u8], path: &[u8]) -> Found {
        crate::find(image, path)
    }

    fn list(&self, image: &[u8], slot: u64, output: &mut [u8]) -> Listed {
        crate::list(image, slot, output)
    }

    fn list_all(&self, image: &[u8], slot: u64, output: &mut [u8]) -> Records {
        crate::list_all(image, slot, output)
    }

    fn read(&self, image: &[u8], path: &[u8], output: &mut [u8]) -> Read {
        crate::read(image, path, output)
    }

    fn create_file(&self, image: &mut [u8], path: &[u8], stamp: i64, bytes: &[u8]) -> Written {
        crate::create_file(image, path, stamp, bytes)
    }

    fn create_directory(&self, image: &mut [u8], path: &[u8], stamp: i64) -> Written {
        crate::create_directory(image, path, stamp)
    }

    fn delete(&self, image: &mut [u8], path: &[u8], stamp: i64) -> Written {
        crate::delete(image, path, stamp)
    }

    fn delete_keep(&self, image: &mut [u8], path: &[u8], stamp: i64) -> Written {
        crate::delete_keep(image, path, stamp)
    }

    fn restore(&self, image: &mut [u8], path: &[u8], stamp: i64) -> Written {
        crate::restore(image, path, stamp)
    }

    fn reclaim(&self, image: &mut [u8], stamp: i64) -> Written {
        crate::reclaim(image, stamp)
    }

    fn listing(&self, image: &[u8], output: &mut [u8]) -> Read {
        crate::listing(image, output)
    }

    fn report_add(&self, image: &[u8], report: &mut [u64]) -> Written {
        crate::report_add(image, report)
    }

    fn report_text(&self, report: &[u64], output: &mut [u8]) -> Read {
        crate::report_text(report, output)
    }

    fn regions(&self, image: &[u8], table: &mut [TableRegion]) -> Tabled {
        crate::regions(image, table)
    }

    fn sharing(&self, image: &[u8]) -> Written {
        crate::sharing(image)
    }

    fn sharing_plain(&self, image: &[u8]) -> Written {
        crate::sharing_plain(image)
    }
}
