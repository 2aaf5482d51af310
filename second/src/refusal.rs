//! The refusal numbers. Lower numbers win, so the judging code runs in this order.

/// A refusal number; 0 is kept for success.
pub type Refusal = u8;

pub const SUCCESS: Refusal = 0;
pub const IMAGE_LENGTH: Refusal = 1;
pub const MAGIC: Refusal = 2;
pub const OTHER_VERSION: Refusal = 3;
pub const CHECKSUM: Refusal = 4;
pub const GEOMETRY: Refusal = 5;
pub const INDEX: Refusal = 6;
pub const REGIONS: Refusal = 7;
pub const PATHS: Refusal = 8;
pub const NEWER_VERSION: Refusal = 9;
pub const BAD_NAME: Refusal = 10;
/// The path has no entry of the wanted sort: a deleted one for restore, a live one for the other calls.
pub const NOT_LIVE: Refusal = 11;
pub const ALREADY_LIVE: Refusal = 12;
pub const NO_DIRECTORY: Refusal = 13;
pub const NOT_EMPTY: Refusal = 14;
pub const NO_SLOTS: Refusal = 15;
pub const NO_BLOCKS: Refusal = 16;
pub const NOT_A_FILE: Refusal = 17;
pub const OUTPUT_SHORT: Refusal = 18;
pub const SEVERAL_DELETED: Refusal = 19;

/// The highest refusal number.
pub const HIGHEST: Refusal = SEVERAL_DELETED;

/// The numbers restore can answer.
pub const OF_RESTORE: [Refusal; 15] = [0, 1, 2, 3, 4, 5, 6, 7, 8, 9, 10, 11, 12, 13, 19];

/// The numbers that the two deletes can answer.
pub const OF_DELETE: [Refusal; 13] = [0, 1, 2, 3, 4, 5, 6, 7, 8, 9, 10, 11, 14];

/// The numbers that calls on a volume of edition 1.10 can answer once its length is right, formats left out.
pub const OF_1_10: [Refusal; 16] = [0, 3, 4, 5, 6, 7, 8, 10, 11, 12, 13, 14, 15, 16, 17, 18];

/// The numbers that adding an image to a report can answer.
pub const OF_REPORT: [Refusal; 10] = [0, 1, 2, 3, 4, 5, 6, 7, 8, 18];

/// The numbers that a table of regions can be answered with.
pub const OF_REGIONS: [Refusal; 9] = [0, 1, 2, 3, 4, 5, 6, 7, 18];

/// How often each number was answered, success at place 0.
pub type Counts = [u64; HIGHEST as usize + 1];
