//! subtle: a comparison in constant time. Licence: public domain (CC0).
#![no_std]
use blade_labels::secret_memory;
use routines as _;
use subtle::ConstantTimeEq;

secret_memory!();

#[no_mangle]
pub extern "C" fn same(a: &[u8; 32], b: &[u8; 32]) -> u32 {
    u32::from(a.ct_eq(b).unwrap_u8())
}
