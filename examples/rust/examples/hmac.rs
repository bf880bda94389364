//! hmac and sha2: HMAC-SHA-256 by a secret key. Licence: public domain (CC0).
#![no_std]
use blade_labels::secret_memory;
use hmac::{Mac, SimpleHmac};
use sha2::Sha256;

secret_memory!();

/// # Safety
/// `key_size` bytes have to be at `key`, and `size` bytes at `data`.
#[no_mangle]
pub unsafe extern "C" fn hmac(out: &mut [u8; 32], key: *const u8, key_size: usize, data: *const u8, size: usize) {
    let mut mac = match SimpleHmac::<Sha256>::new_from_slice(routines::given(key, key_size)) {
        Ok(mac) => mac,
        Err(_) => return,
    };
    mac.update(routines::given(data, size));
    out.copy_from_slice(&mac.finalize().into_bytes());
}
