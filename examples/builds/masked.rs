// The look-up of ../masked.c in Rust: every entry is read, and a mask keeps the one that is asked for. Licence: public domain (CC0).
//     rustc --target wasm32-unknown-unknown --crate-type lib --emit obj -O -g -C panic=abort -C target-cpu=mvp masked.rs
//     blade-cc masked.o --label 'secret-param masked 0' -o masked/
#![no_std]

static TABLE: [u8; 16] = [3, 14, 9, 0, 7, 12, 5, 10, 1, 15, 6, 11, 2, 13, 8, 4];

// inline(never): what an inlined copy is given would not be declared secret.
#[no_mangle]
#[inline(never)]
pub extern "C" fn masked(index: u32) -> u32 {
    if cfg!(leak) {
        return u32::from(TABLE[(index & 15) as usize]);
    }
    let mut found = 0;
    for (i, entry) in (0u32..).zip(TABLE.iter()) {
        // All ones where i is the index, else 0, without a branch.
        let mask = ((i ^ (index & 15)).wrapping_sub(1)) >> 31;
        found |= u32::from(*entry) & mask.wrapping_neg();
    }
    found
}
