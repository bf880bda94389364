//! sha2: SHA-256 of a secret message of public length. Licence: public domain (CC0).
#![no_std]
use blade_labels::secret_memory;
use sha2::{Digest, Sha256};

secret_memory!();

/// # Safety
/// `size` bytes have to be at `data`.
#[no_mangle]
pub unsafe extern "C" fn sha256(out: &mut [u8; 32], data: *const u8, size: usize) {
    out.copy_from_slice(&Sha256::digest(routines::given(data, size)));
}
