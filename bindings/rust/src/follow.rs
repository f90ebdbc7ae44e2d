//! Following a log that publishes a checkpoint and tiles (C2SP tlog-tiles).
//!
//! What is read of the log is not believed: a follower moves on only by a checkpoint that is signed as its policy asks, and by a proof that
//! the library checks. How the proof is made of tiles is no part of that, so a fault in it refuses a log, and accepts none.

use std::collections::HashMap;
use std::error::Error;
use std::fmt;
use std::io;

use crate::notes::{open_checkpoint, Checkpoint};
use crate::{sha256, Digest, Log, Refused};

const WIDTH: usize = 256;

/// Why a follower does not move on.
#[derive(Debug)]
#[non_exhaustive]
pub enum FollowError {
    /// A call of the library refused: the note, the policy or the old checkpoint.
    Refused(Refused),
    /// A file of the log is not read.
    Io(io::Error),
    /// The checkpoint has fewer entries than the old one.
    OldCheckpoint,
    /// The tiles do not lead to the root of the checkpoint.
    WrongTiles,
    /// The log signed two checkpoints of which none continues the other: the old note and this are the evidence.
    Fork {
        /// The note of the checkpoint that does not continue the old one.
        note: Vec<u8>,
        /// The root that its log has at the size of the old one.
        other_root: Digest,
        /// The consistency proof from that root to the new one, none of equal sizes.
        proof: Vec<u8>,
    },
}

impl fmt::Display for FollowError {
    fn fmt(&self, f: &mut fmt::Formatter<'_>) -> fmt::Result {
        match self {
            FollowError::Refused(refused) => refused.fmt(f),
            FollowError::Io(error) => error.fmt(f),
            FollowError::OldCheckpoint => {
                f.write_str("the checkpoint has fewer entries than the old one")
            }
            FollowError::WrongTiles => {
                f.write_str("the tiles do not lead to the root of the checkpoint")
            }
            FollowError::Fork { .. } => f.write_str("the log does not continue"),
        }
    }
}

impl Error for FollowError {}

impl From<Refused> for FollowError {
    fn from(refused: Refused) -> FollowError {
        FollowError::Refused(refused)
    }
}

impl From<io::Error> for FollowError {
    fn from(error: io::Error) -> FollowError {
        FollowError::Io(error)
    }
}

// The greatest power of two below a size above 1.
fn split(size: usize) -> usize {
    1 << (usize::BITS - 1 - (size - 1).leading_zeros())
}

fn tile_name(level: usize, index: usize, width: usize) -> String {
    let mut name = format!("{:03}", index % 1000);
    let mut rest = index / 1000;
    while rest > 0 {
        name = format!("x{:03}/{name}", rest % 1000);
        rest /= 1000;
    }
    if width < WIDTH {
        name = format!("{name}.p/{width}");
    }
    format!("tile/{level}/{name}")
}

fn pair(left: &Digest, right: &Digest) -> Digest {
    let mut bytes = [1; 65];
    bytes[1..33].copy_from_slice(left);
    bytes[33..].copy_from_slice(right);
    sha256(&bytes)
}

// The digests of a log of some size, read out of its tiles.
struct Tiles<F> {
    fetch: F,
    size: usize,
    read: HashMap<(usize, usize), Vec<u8>>,
}

impl<F: FnMut(&str) -> io::Result<Vec<u8>>> Tiles<F> {
    fn tile(&mut self, level: usize, index: usize) -> Result<&[u8], FollowError> {
        if !self.read.contains_key(&(level, index)) {
            let width = ((self.size >> (8 * level)) - WIDTH * index).min(WIDTH);
            let data = match (self.fetch)(&tile_name(level, index, width)) {
                // the log grew meanwhile, and its full tile begins with the same digests
                Err(error) if error.kind() == io::ErrorKind::NotFound && width < WIDTH => {
                    (self.fetch)(&tile_name(level, index, WIDTH))?
                }
                other => other?,
            };
            if data.len() < 32 * width || data.len() > 32 * WIDTH {
                return Err(FollowError::WrongTiles);
            }
            self.read.insert((level, index), data);
        }
        Ok(&self.read[&(level, index)])
    }

    // The root of the entries from `start` up to `end`, by RFC 6962.
    fn node(&mut self, start: usize, end: usize) -> Result<Digest, FollowError> {
        let count = end - start;
        if !count.is_power_of_two() || start % count != 0 {
            let middle = start + split(count);
            let left = self.node(start, middle)?;
            return Ok(pair(&left, &self.node(middle, end)?));
        }
        let height = count.trailing_zeros() as usize;
        let (level, beyond) = (height / 8, height % 8);
        let first = start >> (8 * level);
        let tile = self.tile(level, first / WIDTH)?;
        let at = 32 * (first % WIDTH);
        let mut row: Vec<Digest> = tile[at..at + (32 << beyond)]
            .chunks_exact(32)
            .map(|digest| digest.try_into().unwrap_or([0; 32]))
            .collect();
        while row.len() > 1 {
            row = row
                .chunks_exact(2)
                .map(|two| pair(&two[0], &two[1]))
                .collect();
        }
        Ok(row[0])
    }

    fn root(&mut self, size: usize) -> Result<Digest, FollowError> {
        match size {
            0 => Ok(sha256(&[])),
            _ => self.node(0, size),
        }
    }

    // Puts the consistency proof from `old` of the entries from `start` up to `end` behind others, by RFC 6962, section 2.1.2.
    fn prove(
        &mut self,
        old: usize,
        start: usize,
        end: usize,
        whole: bool,
        proof: &mut Vec<u8>,
    ) -> Result<(), FollowError> {
        if old == end - start {
            if !whole {
                proof.extend_from_slice(&self.node(start, end)?);
            }
            return Ok(());
        }
        let middle = start + split(end - start);
        if start + old <= middle {
            self.prove(old, start, middle, whole, proof)?;
            proof.extend_from_slice(&self.node(middle, end)?);
        } else {
            self.prove(start + old - middle, middle, end, false, proof)?;
            proof.extend_from_slice(&self.node(start, middle)?);
        }
        Ok(())
    }
}

/// Reads the checkpoint that a log publishes, and returns what it states with its note, where it continues the checkpoint of an old note.
///
/// `fetch` returns the bytes of `checkpoint` and of tiles, `tile/..`, by these names: what it reads from is up to it, as is how much of it;
/// `NotFound` says that there is no such file. Keep the note that is returned, on the disk, before you go on, and hand it over as `old` the
/// next time: then all checkpoints are of one log. The first time there is none, and the log is taken as it is. `policy`, `since` and `origin`
/// are as of [`open_checkpoint`].
///
/// # Errors
///
/// Those of [`open_checkpoint`], of the old note whatever its time, and the others of [`FollowError`].
pub fn follow(
    mut fetch: impl FnMut(&str) -> io::Result<Vec<u8>>,
    policy: &str,
    since: u64,
    origin: &str,
    old: Option<&[u8]>,
) -> Result<(Checkpoint, Vec<u8>), FollowError> {
    let note = fetch("checkpoint")?;
    let head = open_checkpoint(policy, since, origin, &note)?;
    let first = match old {
        Some(old) => open_checkpoint(policy, 0, origin, old)?,
        None => Checkpoint {
            size: 0,
            root: sha256(&[]),
        },
    };
    if head.size < first.size {
        return Err(FollowError::OldCheckpoint);
    }
    let mut tiles = Tiles {
        fetch,
        size: head.size,
        read: HashMap::new(),
    };
    if first.size == 0 {
        if tiles.root(head.size)? != head.root {
            return Err(FollowError::WrongTiles);
        }
        return Ok((head, note));
    }
    if head.size == first.size {
        return match head.root == first.root {
            true => Ok((head, note)),
            false => Err(FollowError::Fork {
                note,
                other_root: head.root,
                proof: Vec::new(),
            }),
        };
    }
    let mut proof = Vec::new();
    tiles.prove(first.size, 0, head.size, true, &mut proof)?;
    if Log::verify_consistency(&first.root, first.size, &head.root, head.size, &proof)? {
        return Ok((head, note));
    }
    let other = tiles.root(first.size)?;
    if other == first.root
        || !Log::verify_consistency(&other, first.size, &head.root, head.size, &proof)?
    {
        return Err(FollowError::WrongTiles);
    }
    Err(FollowError::Fork {
        note,
        other_root: other,
        proof,
    })
}
