//! Leaks: the index into a table is secret. Licence: public domain (CC0).
#![no_std]
use blade_labels::secret_param;
use routines as _;

static TABLE: [u8; 16] = [3, 14, 9, 0, 7, 12, 5, 10, 1, 15, 6, 11, 2, 13, 8, 4];

secret_param!(lookup, index);

#[no_mangle]
pub extern "C" fn lookup(index: u32) -> u32 {
    u32::from(TABLE[(index & 15) as usize])
}
