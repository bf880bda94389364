//! siphasher: SipHash-2-4 by a secret key. Licence: public domain (CC0).
#![no_std]
use blade_labels::secret_memory;
use core::hash::Hasher;
use siphasher::sip::SipHasher24;

secret_memory!();

/// # Safety
/// `size` bytes have to be at `data`.
#[no_mangle]
pub unsafe extern "C" fn siphash(key: &[u8; 16], data: *const u8, size: usize) -> u64 {
    let mut hasher = SipHasher24::new_with_key(key);
    hasher.write(routines::given(data, size));
    hasher.finish()
}
