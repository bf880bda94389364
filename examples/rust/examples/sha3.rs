//! sha3: SHA3-256 of a secret message of public length. Licence: public domain (CC0).
#![no_std]
use blade_labels::secret_memory;
use sha3::{Digest, Sha3_256};

secret_memory!();

/// # Safety
/// `size` bytes have to be at `data`.
#[no_mangle]
pub unsafe extern "C" fn sha3_256(out: &mut [u8; 32], data: *const u8, size: usize) {
    out.copy_from_slice(&Sha3_256::digest(routines::given(data, size)));
}
