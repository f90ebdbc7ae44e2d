//! Checks of a log's proofs, for its clients.

#[cfg(feature = "std")]
use crate::Log;
use crate::{sys, verdict, Digest, Refused};

/// The checks of the proofs of a transparency log of any size (RFC 6962 and RFC 9162, section 2.1). With the feature `std` it is also
/// a log that is kept.
#[cfg(not(feature = "std"))]
#[derive(Debug)]
pub enum Log {}

impl Log {
    /// As `verify_inclusion`, of an entry that is known by its digest: the SHA-256 of a zero byte and the entry.
    pub fn verify_inclusion_digest(
        root: &Digest,
        size: usize,
        index: usize,
        digest: &Digest,
        path: &[u8],
    ) -> Result<bool, Refused> {
        // SAFETY: as in `Trees::verify`.
        verdict(unsafe {
            sys::paxidore_log_verify_inclusion_digest(
                root.as_ptr(),
                size,
                index,
                digest.as_ptr(),
                path.as_ptr(),
                path.len(),
            )
        })
    }

    /// Whether the path shows that the entry stands at the index of the log of `size` entries with this root.
    ///
    /// `Ok(false)` says that the path was read and leads elsewhere. Refusals: `Index`, `Truncated`, `Invalid`, `Memory`.
    pub fn verify_inclusion(
        root: &Digest,
        size: usize,
        index: usize,
        entry: &[u8],
        path: &[u8],
    ) -> Result<bool, Refused> {
        // SAFETY: as in `Trees::verify`.
        verdict(unsafe {
            sys::paxidore_log_verify_inclusion(
                root.as_ptr(),
                size,
                index,
                entry.as_ptr(),
                entry.len(),
                path.as_ptr(),
                path.len(),
            )
        })
    }

    /// Whether one proof shows that several entries, which stand one behind the other in `bytes`, stand at as many rising indexes of
    /// the log of `size` entries with this root. It copies nothing.
    ///
    /// Refusals: `Count`; `Index`, also of no index and of one that does not rise; `Lengths` where the lengths do not sum to that of
    /// the bytes; `Truncated`, `Invalid`, `Memory`.
    pub fn verify_multi_inclusion_flat(
        root: &Digest,
        size: usize,
        indexes: &[usize],
        bytes: &[u8],
        lengths: &[usize],
        proof: &[u8],
    ) -> Result<bool, Refused> {
        // SAFETY: as in `Trees::verify`.
        verdict(unsafe {
            sys::paxidore_log_verify_multi_inclusion(
                root.as_ptr(),
                size,
                indexes.as_ptr(),
                indexes.len(),
                bytes.as_ptr(),
                bytes.len(),
                lengths.as_ptr(),
                lengths.len(),
                proof.as_ptr(),
                proof.len(),
            )
        })
    }

    /// Whether one proof shows that each entry stands at its index. The indexes rise, and there are as many entries.
    ///
    /// Refusals: those of `verify_multi_inclusion_flat` but `Lengths`.
    #[cfg(feature = "std")]
    pub fn verify_multi_inclusion<E: AsRef<[u8]>>(
        root: &Digest,
        size: usize,
        indexes: &[usize],
        entries: &[E],
        proof: &[u8],
    ) -> Result<bool, Refused> {
        let crate::Flat { bytes, lengths } = crate::Flat::of(entries);
        Log::verify_multi_inclusion_flat(root, size, indexes, &bytes, &lengths, proof)
    }

    /// Whether the proof shows that the log with the new root and size continues the one with the old root and size.
    ///
    /// Refusals: `Size` of the old size 0 and of one above the new size, `Truncated`, `Invalid`, `Memory`.
    pub fn verify_consistency(
        old_root: &Digest,
        old_size: usize,
        new_root: &Digest,
        new_size: usize,
        proof: &[u8],
    ) -> Result<bool, Refused> {
        // SAFETY: as in `Trees::verify`.
        verdict(unsafe {
            sys::paxidore_log_verify_consistency(
                old_root.as_ptr(),
                old_size,
                new_root.as_ptr(),
                new_size,
                proof.as_ptr(),
                proof.len(),
            )
        })
    }
}
