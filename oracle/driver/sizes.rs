//! The sizes of tables. The oracle has each of them compiled in (../src/table.rs).

/// Sizes at which something changes stand more than once: without share (0, 1, 2), the first share (3), the first
/// whole-group copy that can run out midway (7), powers of two and their neighbours.
pub const SMALL: [usize; 38] = [
    0, 0, 1, 1, 2, 2, 3, 3, 3, 4, 5, 6, 7, 7, 7, 8, 8, 8, 8, 9, 10, 11, 12, 15, 16, 16, 16, 16, 17, 17, 17, 18, 24, 31,
    32, 33, 64, 128,
];

/// From 509 on a share is above 253, and from 513 on above 255, the caps on the remaining capacity of our program and of
/// the Rust.
pub const LARGE: [usize; 30] = [
    200, 255, 255, 255, 256, 256, 256, 257, 300, 506, 507, 508, 508, 509, 509, 510, 511, 512, 512, 513, 513, 513, 514,
    515, 768, 1000, 1023, 1024, 1024, 1024,
];

/// Around both caps: with few entries a fabric's remaining capacity passes them one by one.
pub const CAPPED: [usize; 9] = [507, 508, 509, 510, 511, 512, 513, 514, 515];

/// In share mode: those where no fabric has a share (0, 1, 2), where it is one scene (3), and those where few scenes reach it.
pub const SHARED: [usize; 36] = [
    0, 0, 0, 1, 1, 1, 2, 2, 2, 3, 3, 3, 3, 4, 5, 6, 7, 7, 7, 8, 8, 8, 9, 10, 11, 12, 16, 16, 16, 17, 17, 17, 18, 24, 33, 64,
];
