//! A second, independent implementation of the Simple File System, editions 1.0 and 1.10.
//!
//! It exists to be compared with another program, so it is kept plain: every call judges the whole
//! image afresh, plans with ordinary vectors, and writes only once nothing can be refused any more.
#![forbid(unsafe_code)]

pub mod answer;
pub mod bytes;
pub mod create;
pub mod dates;
pub mod edition;
pub mod erase;
pub mod format;
pub mod generator;
pub mod history;
pub mod index;
pub mod listing;
pub mod names;
pub mod paths;
pub mod query;
pub mod refusal;
pub mod regions;
pub mod report;
pub mod script;
pub mod selftest;
pub mod sharing;
pub mod store;
pub mod superblock;
pub mod volume;
pub mod xorshift;

pub use answer::{Found, Listed, Opened, Read, Records, Tabled, Written};
pub use create::{create, create_directory, create_file, Content};
pub use edition::Edition;
pub use erase::{delete, delete_keep, reclaim, restore};
pub use format::format;
pub use listing::{listing, listing_text};
pub use query::{find, list, list_all, open, read};
pub use report::{report_add, report_of, report_text};
pub use sharing::{regions, sharing, sharing_plain, TableRegion};
pub use store::API;
