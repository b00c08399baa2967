//! The example file of the requirements, files with one of its words changed, and refused flips.

// Each test program uses a part of it.
#![allow(dead_code)]

pub mod flips;

/// Which word of the example file is which.
pub const LEVEL: usize = 1;
pub const FIELD_WIDTH: usize = 2;
pub const FIELD_HEIGHT: usize = 3;
pub const RESERVED: usize = 4;
pub const NEXT: usize = 8;
pub const WIDTH: usize = 11;
pub const SHIFT_X: usize = 13;
pub const SHIFT_Y: usize = 14;
pub const COUNT: usize = 15;

/// First record 1, level 2; record 1 = 0, -500, 0, 1000, 800, 0, 0, 4.
const EXAMPLE: [u32; 16] = [1, 2, 0, 0, 0, 0, 0, 0, 0, -500_i32 as u32, 0, 1000, 800, 0, 0, 4];

pub fn example() -> Vec<u8> {
    EXAMPLE.iter().flat_map(|word| word.to_le_bytes()).collect()
}

pub fn example_with(place: usize, value: u32) -> Vec<u8> {
    changed(example(), place, value)
}

/// The example under a reader's field of this width and height.
pub fn example_under(width: u32, height: u32) -> Vec<u8> {
    changed(example_with(FIELD_WIDTH, width), FIELD_HEIGHT, height)
}

pub fn changed(mut file: Vec<u8>, place: usize, value: u32) -> Vec<u8> {
    file[4 * place..][..4].copy_from_slice(&value.to_le_bytes());
    file
}
