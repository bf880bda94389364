//! Leaks: the comparison stops at the first difference. Licence: public domain (CC0).
#![no_std]
use blade_labels::secret_memory;
use routines as _;

secret_memory!();

#[no_mangle]
pub extern "C" fn same(a: &[u8; 32], b: &[u8; 32]) -> u32 {
    for at in 0..32 {
        if a[at] != b[at] {
            return 0;
        }
    }
    1
}
