//! Ed25519 signatures (RFC 8032, section 5.1).

use crate::sys;

/// The secret that a key is made of: 32 bytes, drawn at random. Wiping it is up to its owner; the library keeps no copy.
pub type Seed = [u8; 32];

/// The key that others are given.
pub type PublicKey = [u8; 32];

/// A signature.
pub type Signature = [u8; 64];

/// The key of a seed. No branch and no address of this call and of `sign` depends on the seed, as is tested.
pub fn public_key(seed: &Seed) -> PublicKey {
    let mut key = [0; 32];
    // SAFETY: both pointers are to 32 bytes.
    unsafe { sys::paxidore_ed25519_public_key(key.as_mut_ptr(), seed.as_ptr()) };
    key
}

/// The signature of a message by the key of a seed.
pub fn sign(seed: &Seed, message: &[u8]) -> Signature {
    let mut signature = [0; 64];
    // SAFETY: `signature` has room for 64 bytes, `seed` has 32, and the pointer with its length is that of a slice.
    unsafe {
        sys::paxidore_ed25519_sign(
            signature.as_mut_ptr(),
            seed.as_ptr(),
            message.as_ptr(),
            message.len(),
        )
    };
    signature
}

/// Whether it is a signature of the message under the key.
#[must_use]
pub fn verify(key: &PublicKey, message: &[u8], signature: &Signature) -> bool {
    // SAFETY: as in `sign`; the call reads alone.
    let answer = unsafe {
        sys::paxidore_ed25519_verify(
            key.as_ptr(),
            message.as_ptr(),
            message.len(),
            signature.as_ptr(),
        )
    };
    answer == 0
}
