//! Signed checkpoints of logs (C2SP signed-note, tlog-checkpoint, tlog-cosignature), and receipts of their entries (C2SP tlog-proof).
//!
//! A log states its size and its root in a checkpoint, which it signs. Who else has to sign is what a policy says, a text of lines as
//! `log KEY`, `witness NAME KEY`, `group NAME K MEMBER ..` and `quorum NAME`; `log KEY` and `quorum none` ask for the log alone. A witness
//! has to have signed at `since` or later, in seconds since 1970; 0 takes any time. An empty `origin` is the name of the log's key.

use crate::{sys, Digest, Refused};

/// What a log states: how many entries it has, and its root.
#[derive(Debug, Clone, Copy, PartialEq, Eq)]
pub struct Checkpoint {
    /// How many entries the log has.
    pub size: usize,
    /// Its root.
    pub root: Digest,
}

/// What a receipt shows: at which index the entry stands, in the log with this size and root.
#[derive(Debug, Clone, Copy, PartialEq, Eq)]
pub struct Shown {
    /// The index of the entry.
    pub index: usize,
    /// How many entries the log has.
    pub size: usize,
    /// Its root.
    pub root: Digest,
}

/// Returns what the checkpoint of a note states, where the note is signed as the policy asks.
///
/// Refusals: `NoPolicy`; `OtherOrigin`; `Invalid` for bytes that are no note or no checkpoint; `BadSignature`; `NotSigned`; `Memory`.
pub fn open_checkpoint(
    policy: &str,
    since: u64,
    origin: &str,
    note: &[u8],
) -> Result<Checkpoint, Refused> {
    let (mut root, mut size) = ([0; 32], 0);
    // SAFETY: `root` has room for 32 bytes, and each pointer with a length is that of a slice.
    let answer = unsafe {
        sys::paxidore_checkpoint_open(
            root.as_mut_ptr(),
            &mut size,
            policy.as_ptr(),
            policy.len(),
            since,
            origin.as_ptr(),
            origin.len(),
            note.as_ptr(),
            note.len(),
        )
    };
    match answer {
        0 => Ok(Checkpoint { size, root }),
        refused => Err(Refused::of(refused)),
    }
}

/// Returns what a receipt shows of an entry, where its checkpoint is signed as the policy asks; `None` where its path does not lead from
/// the entry to the root.
///
/// Refusals: those of [`open_checkpoint`], and `Invalid` for bytes that are no receipt.
pub fn open_receipt(
    policy: &str,
    since: u64,
    origin: &str,
    entry: &[u8],
    receipt: &[u8],
) -> Result<Option<Shown>, Refused> {
    let (mut root, mut size, mut index) = ([0; 32], 0, 0);
    // SAFETY: as in `open_checkpoint`.
    let answer = unsafe {
        sys::paxidore_receipt_open(
            root.as_mut_ptr(),
            &mut size,
            &mut index,
            policy.as_ptr(),
            policy.len(),
            since,
            origin.as_ptr(),
            origin.len(),
            entry.as_ptr(),
            entry.len(),
            receipt.as_ptr(),
            receipt.len(),
        )
    };
    match answer {
        0 => Ok(Some(Shown { index, size, root })),
        1 => Ok(None),
        refused => Err(Refused::of(refused)),
    }
}

/// Returns the note of a checkpoint, signed by the key of a seed under a name.
///
/// Refusals: `Invalid` for a name or an origin that is none; `Memory`.
#[cfg(feature = "std")]
pub fn sign_checkpoint(
    seed: &crate::ed25519::Seed,
    name: &str,
    origin: &str,
    root: &Digest,
    size: usize,
) -> Result<Vec<u8>, Refused> {
    crate::written(name.len() + origin.len() + 200, |note, room, count| {
        // SAFETY: the buffer has that room, `seed` and `root` have 32 bytes, and each pointer with a length is that of a slice.
        unsafe {
            sys::paxidore_checkpoint_sign(
                note,
                room,
                count,
                seed.as_ptr(),
                name.as_ptr(),
                name.len(),
                origin.as_ptr(),
                origin.len(),
                root.as_ptr(),
                size,
            )
        }
    })
}

/// Returns the text of a key under a name, as a policy has it.
///
/// Refusals: `Invalid` for a name that is none; `Memory`.
#[cfg(feature = "std")]
pub fn verifier_text(name: &str, key: &crate::ed25519::PublicKey) -> Result<String, Refused> {
    let text = crate::written(name.len() + 64, |text, room, count| {
        // SAFETY: as in `sign_checkpoint`.
        unsafe {
            sys::paxidore_verifier_text(text, room, count, name.as_ptr(), name.len(), key.as_ptr())
        }
    })?;
    String::from_utf8(text).map_err(|_| Refused::Invalid)
}
