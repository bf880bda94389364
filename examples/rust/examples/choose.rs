//! subtle: a choice in constant time. Licence: public domain (CC0).
#![no_std]
use blade_labels::{secret_memory, secret_param};
use routines as _;
use subtle::{Choice, ConditionallySelectable};

// subtle passes the bit through memory, to hide it from the compiler.
secret_memory!();
secret_param!(choose, bit);

#[no_mangle]
pub extern "C" fn choose(a: u64, b: u64, bit: u32) -> u64 {
    u64::conditional_select(&a, &b, Choice::from((bit & 1) as u8))
}
