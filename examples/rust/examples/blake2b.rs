//! blake2b_simd: BLAKE2b with a secret key, without SIMD. Licence: public domain (CC0).
#![no_std]
use blade_labels::secret_memory;

secret_memory!();

/// # Safety
/// `key_size` bytes have to be at `key`, and `size` bytes at `data`.
#[no_mangle]
pub unsafe extern "C" fn blake2b(out: &mut [u8; 64], key: *const u8, key_size: usize, data: *const u8, size: usize) {
    let hash = blake2b_simd::Params::new()
        .key(routines::given(key, key_size))
        .hash(routines::given(data, size));
    out.copy_from_slice(hash.as_bytes());
}
