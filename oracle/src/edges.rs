//! Values at the edges, for the generator to draw from.

/// Ids at the edges of index, class and generation.
pub const IDS: [u32; 18] = [
    0,
    1,
    63,
    64,
    65_535,
    65_536,
    65_537,
    65_536 + 63,
    65_536 + 64,
    65_536 + 16_383,
    65_536 + 16_384,
    65_536 + 16_384 + 31,
    65_536 + 16_384 + 32,
    65_536 + 32_768,
    65_536 + 32_768 + 7,
    65_536 + 32_768 + 8,
    65_536 + 49_152,
    u32::MAX,
];

/// One past the greatest sizes each way, and far past.
pub const REFUSED_SIZES: [[u8; 3]; 7] = [
    [33, 64, 8],
    [32, 65, 8],
    [32, 64, 9],
    [32, 64, 0],
    [0, 0, 0],
    [33, 65, 9],
    [255, 255, 255],
];

/// Slot and epoch. Some differ in one of the two alone.
pub const TASKS: [[u16; 2]; 8] = [
    [1, 0],
    [2, 0],
    [2, 1],
    [3, 1],
    [0, 0],
    [0, 65_535],
    [65_535, 0],
    [65_535, 65_535],
];

pub const ROWS: [u8; 4] = [53, 54, 55, 255];
/// Rows that may send, and rows that may not: 75 is what a reader finds where a
/// send has no row and another record follows.
pub const SENDERS: [u8; 2] = [0, 53];
pub const BAD_SENDERS: [u8; 5] = [54, 55, 75, 128, 255];
pub const SLOTS: [u8; 4] = [3, 4, 5, 255];

/// A task's one number, or a cookie.
pub const NUMBERS: [u32; 3] = [0, 1 << 31, u32::MAX];
