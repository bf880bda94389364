//! aes-soft: AES-128 of one block, bitsliced. Licence: public domain (CC0).
#![no_std]
use aes_soft::cipher::{generic_array::GenericArray, BlockCipher, NewBlockCipher};
use blade_labels::secret_memory;
use routines as _;

secret_memory!();

#[no_mangle]
pub extern "C" fn aes128(block: &mut [u8; 16], key: &[u8; 16]) {
    let cipher = aes_soft::Aes128::new(GenericArray::from_slice(key));
    cipher.encrypt_block(GenericArray::from_mut_slice(block));
}
