//! Merkle trees over byte strings, transparency logs, maps, transcripts, SHA-256, BLAKE2s, commitments, Ed25519 and circomlib's
//! Poseidon, by the proved code of libpaxidore.
//!
//! A log or a store publishes the root of its leaves and their count, and hands out paths. Whoever has the root and the count
//! checks them without the other leaves:
//!
//! ```
//! use paxidore::Trees;
//!
//! let leaves = ["ann", "bob", "cat", "dan"];
//! let root = Trees::RFC6962.root(&leaves)?;
//! let path = Trees::RFC6962.path(&leaves, 2)?;
//! assert!(Trees::RFC6962.verify(&root, 4, 2, b"cat", &path)?);
//! # Ok::<(), paxidore::Refused>(())
//! ```
//!
//! Without the feature `std`, which is on by default, the crate is `no_std` and allocates nothing of its own: it has the checks of
//! proofs, the hashes, the commitments, Ed25519 and Poseidon. The library still calls the `malloc`, `realloc` and `free` that are linked.
#![cfg_attr(not(feature = "std"), no_std)]
#![warn(missing_docs)]

mod client;
pub mod ed25519;
#[cfg(feature = "std")]
mod follow;
#[cfg(feature = "std")]
mod log;
#[cfg(feature = "std")]
mod log_file;
mod map;
#[cfg(feature = "std")]
mod map_entries;
#[cfg(feature = "std")]
mod map_memory;
pub mod notes;
pub mod poseidon;
mod refused;
#[cfg_attr(not(feature = "std"), allow(dead_code))]
mod sys;
#[cfg(feature = "std")]
mod transcript;
#[cfg(feature = "std")]
mod tree;

#[cfg(not(feature = "std"))]
pub use client::Log;
use core::ffi::CStr;
use core::fmt;
#[cfg(feature = "std")]
pub use follow::{follow, FollowError};
#[cfg(feature = "std")]
pub use log::{Log, LogError};
pub use map::Map;
#[cfg(feature = "std")]
pub use map_memory::{Difference as MapDifference, MapVersion};
use refused::verdict;
pub use refused::Refused;
#[cfg(feature = "std")]
pub use transcript::{ready_parameters, Field, Transcript};
#[cfg(feature = "std")]
pub use tree::Tree;

/// A root, a commitment, or another digest.
pub type Digest = [u8; 32];

/// What stands behind the value in a commitment.
pub type Nonce = [u8; 32];

// Leaves one behind the other, and the length of each.
#[cfg(feature = "std")]
struct Flat {
    bytes: Vec<u8>,
    lengths: Vec<usize>,
}

#[cfg(feature = "std")]
impl Flat {
    fn of<L: AsRef<[u8]>>(leaves: &[L]) -> Flat {
        let mut flat = Flat {
            bytes: Vec::new(),
            lengths: Vec::with_capacity(leaves.len()),
        };
        for leaf in leaves {
            let leaf = leaf.as_ref();
            flat.bytes.extend_from_slice(leaf);
            flat.lengths.push(leaf.len());
        }
        flat
    }
}

// Bytes that a call writes into a buffer which is long enough, with their count.
#[cfg(feature = "std")]
fn written(
    room: usize,
    call: impl FnOnce(*mut u8, usize, *mut usize) -> i32,
) -> Result<Vec<u8>, Refused> {
    let (mut bytes, mut count) = (vec![0; room], 0);
    match call(bytes.as_mut_ptr(), room, &mut count) {
        0 => {
            bytes.truncate(count);
            Ok(bytes)
        }
        refused => Err(Refused::of(refused)),
    }
}

/// The calls of one hashing. `Memory` is a refusal of the library's own requests; the copies of leaves that these calls hand to it
/// are Rust's `Vec`s, which end the process where there is no room for them.
#[derive(Clone, Copy)]
pub struct Trees {
    hashing: u32,
}

impl fmt::Debug for Trees {
    fn fmt(&self, f: &mut fmt::Formatter<'_>) -> fmt::Result {
        f.debug_struct("Trees").finish_non_exhaustive()
    }
}

impl Trees {
    /// SHA-256 of a leaf, and of left followed by right. A pair can be taken for a leaf of 64 bytes.
    pub const SHA256: Trees = Trees {
        hashing: sys::PLAIN,
    };

    /// As transparency logs hash (RFC 6962, section 2.1): no pair is taken for a leaf.
    pub const RFC6962: Trees = Trees {
        hashing: sys::RFC6962,
    };

    /// Whether the path shows that the leaf stands at the index of the tree of `size` leaves with this root.
    ///
    /// `Ok(false)` says that the path was read and leads elsewhere. Refusals: `Size`, `Index`, `Truncated`, `Invalid`, `Height`,
    /// `Memory`.
    pub fn verify(
        self,
        root: &Digest,
        size: usize,
        index: usize,
        leaf: &[u8],
        path: &[u8],
    ) -> Result<bool, Refused> {
        // SAFETY: each pointer with its length is that of a borrowed slice, and the call asks for nothing else.
        verdict(unsafe {
            sys::paxidore_verify(
                self.hashing,
                root.as_ptr(),
                size,
                index,
                leaf.as_ptr(),
                leaf.len(),
                path.as_ptr(),
                path.len(),
            )
        })
    }

    /// As [`verify`](Trees::verify), of several leaves, which stand one behind the other in `bytes`. The indexes rise, and there are as
    /// many lengths. It copies nothing.
    ///
    /// Refusals: those of `verify`, `Count`, and `Lengths` where the lengths do not sum to that of the bytes.
    pub fn multi_verify_flat(
        self,
        root: &Digest,
        size: usize,
        indexes: &[usize],
        bytes: &[u8],
        lengths: &[usize],
        proof: &[u8],
    ) -> Result<bool, Refused> {
        // SAFETY: as in `verify`.
        verdict(unsafe {
            sys::paxidore_multi_verify(
                self.hashing,
                root.as_ptr(),
                size,
                indexes.as_ptr(),
                indexes.len(),
                bytes.as_ptr(),
                bytes.len(),
                lengths.as_ptr(),
                lengths.len(),
                proof.as_ptr(),
                proof.len(),
            )
        })
    }
}

#[cfg(feature = "std")]
impl Trees {
    /// Whether the proof shows each leaf at its index. The indexes rise, and there are as many leaves.
    ///
    /// Refusals: those of `verify`, and `Count`.
    pub fn multi_verify<L: AsRef<[u8]>>(
        self,
        root: &Digest,
        size: usize,
        indexes: &[usize],
        leaves: &[L],
        proof: &[u8],
    ) -> Result<bool, Refused> {
        let Flat { bytes, lengths } = Flat::of(leaves);
        self.multi_verify_flat(root, size, indexes, &bytes, &lengths, proof)
    }

    /// The root of the tree above the leaves. Refusals: `Size`, `Memory`.
    pub fn root<L: AsRef<[u8]>>(self, leaves: &[L]) -> Result<Digest, Refused> {
        let Flat { bytes, lengths } = Flat::of(leaves);
        let mut root = [0; 32];
        // SAFETY: as in `verify`, and `root` has room for 32 bytes that nothing else lends.
        let answer = unsafe {
            sys::paxidore_root(
                root.as_mut_ptr(),
                self.hashing,
                bytes.as_ptr(),
                bytes.len(),
                lengths.as_ptr(),
                lengths.len(),
            )
        };
        match answer {
            0 => Ok(root),
            refused => Err(Refused::of(refused)),
        }
    }

    /// The bytes of the path of an index. Refusals: `Size`, `Index`, `Memory`.
    pub fn path<L: AsRef<[u8]>>(self, leaves: &[L], index: usize) -> Result<Vec<u8>, Refused> {
        let Flat { bytes, lengths } = Flat::of(leaves);
        let room = 16 + path_digests(lengths.len());
        // SAFETY: as in `verify`, and the buffer has room for `room` bytes that nothing else lends.
        written(room, |path, room, count| unsafe {
            sys::paxidore_path(
                path,
                room,
                count,
                self.hashing,
                bytes.as_ptr(),
                bytes.len(),
                lengths.as_ptr(),
                lengths.len(),
                index,
            )
        })
    }

    /// The bytes of the multi-proof of some indexes, in any order; it shows them rising and each once. Refusals: as `path`.
    pub fn multi_path<L: AsRef<[u8]>>(
        self,
        leaves: &[L],
        indexes: &[usize],
    ) -> Result<Vec<u8>, Refused> {
        let Flat { bytes, lengths } = Flat::of(leaves);
        let room = multi_path_room(lengths.len(), indexes.len());
        // SAFETY: as in `path`.
        written(room, |proof, room, count| unsafe {
            sys::paxidore_multi_path(
                proof,
                room,
                count,
                self.hashing,
                bytes.as_ptr(),
                bytes.len(),
                lengths.as_ptr(),
                lengths.len(),
                indexes.as_ptr(),
                indexes.len(),
            )
        })
    }
}

// How many bytes the digests of a path have in a tree of this size.
#[cfg(feature = "std")]
fn path_digests(size: usize) -> usize {
    32 * (usize::BITS - size.saturating_sub(1).leading_zeros()) as usize
}

// As many bytes as a multi-proof of so many indexes has at most in a tree of this size.
#[cfg(feature = "std")]
fn multi_path_room(size: usize, count: usize) -> usize {
    // each index is shown once, so that there are no more than leaves
    32 + count.min(size) * (24 + path_digests(size))
}

/// The SHA-256 of some bytes (FIPS 180-4).
pub fn sha256(input: &[u8]) -> Digest {
    let mut digest = [0; 32];
    // SAFETY: as in `Trees::root`.
    unsafe { sys::paxidore_sha256(digest.as_mut_ptr(), input.as_ptr(), input.len()) };
    digest
}

/// The BLAKE2s of some bytes, with no key (RFC 7693).
pub fn blake2s(input: &[u8]) -> Digest {
    let mut digest = [0; 32];
    // SAFETY: as in `Trees::root`.
    unsafe { sys::paxidore_blake2s(digest.as_mut_ptr(), input.as_ptr(), input.len()) };
    digest
}

/// A BLAKE2s of a text that comes piece by piece, with no key (RFC 7693).
#[derive(Clone)]
pub struct Blake2s {
    state: sys::Blake2sState,
}

impl fmt::Debug for Blake2s {
    fn fmt(&self, f: &mut fmt::Formatter<'_>) -> fmt::Result {
        f.debug_struct("Blake2s").finish_non_exhaustive()
    }
}

impl Default for Blake2s {
    fn default() -> Blake2s {
        Blake2s::new()
    }
}

impl Blake2s {
    /// The state of no bytes.
    pub fn new() -> Blake2s {
        let mut state = core::mem::MaybeUninit::uninit();
        // SAFETY: the call writes each member of the state.
        unsafe {
            sys::paxidore_blake2s_init(state.as_mut_ptr());
            Blake2s {
                state: state.assume_init(),
            }
        }
    }

    /// Takes the next bytes of the text.
    pub fn update(&mut self, input: &[u8]) {
        // SAFETY: the state is borrowed for the call alone, and the pointer with its length is that of a slice.
        unsafe { sys::paxidore_blake2s_update(&mut self.state, input.as_ptr(), input.len()) };
    }

    /// The digest of the text.
    pub fn finalize(mut self) -> Digest {
        let mut digest = [0; 32];
        // SAFETY: as in `update`, and `digest` has room for 32 bytes.
        unsafe { sys::paxidore_blake2s_final(digest.as_mut_ptr(), &mut self.state) };
        digest
    }
}

/// The commitment to a value: the BLAKE2s of the value followed by the nonce.
///
/// The nonce is for one commitment, drawn at random and kept secret until the value is shown: it is what hides the value, of which
/// nothing is proved.
pub fn blake2s_commit(value: &[u8], nonce: &Nonce) -> Digest {
    let mut commitment = [0; 32];
    // SAFETY: as in `Trees::root`.
    unsafe {
        sys::paxidore_blake2s_commit(
            commitment.as_mut_ptr(),
            value.as_ptr(),
            value.len(),
            nonce.as_ptr(),
        )
    };
    commitment
}

/// Whether the commitment is that to the value, with this nonce.
#[must_use]
pub fn blake2s_opens(commitment: &Digest, value: &[u8], nonce: &Nonce) -> bool {
    // SAFETY: as in `Trees::verify`.
    let answer = unsafe {
        sys::paxidore_blake2s_opens(
            commitment.as_ptr(),
            value.as_ptr(),
            value.len(),
            nonce.as_ptr(),
        )
    };
    answer == 0
}

/// The version of the library that is linked.
pub fn version() -> &'static str {
    // SAFETY: the library answers a text of its own, which ends with a zero byte and never changes.
    unsafe { CStr::from_ptr(sys::paxidore_version()) }
        .to_str()
        .unwrap_or("")
}

/// The level of processor for which the code that runs was built: `x86-64-v3` where this processor has all of it, else
/// `x86-64-v2`, on another machine its own, such as `aarch64`. It is chosen as the program begins. With
/// `PAXIDORE_CPU=x86-64-v2` in the environment it is the second one.
pub fn cpu() -> &'static str {
    // SAFETY: as in `version`.
    unsafe { CStr::from_ptr(sys::paxidore_cpu()) }
        .to_str()
        .unwrap_or("")
}
