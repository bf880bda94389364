//! What all examples share: a panic handler, and the slices that callers give by pointer and length.
//! Licence: public domain (CC0).
#![no_std]

#[panic_handler]
fn stop(_: &core::panic::PanicInfo) -> ! {
    loop {}
}

/// The bytes that a caller gives.
///
/// # Safety
/// `size` bytes have to be at `data`, and nobody may change them meanwhile.
pub unsafe fn given<'a>(data: *const u8, size: usize) -> &'a [u8] {
    core::slice::from_raw_parts(data, size)
}
