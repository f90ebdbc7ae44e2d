//! The memory of a map: its entries and forks, as the library keeps them.

use crate::{sys, Digest, Refused};
use std::fmt;
use std::sync::atomic::{AtomicU64, Ordering};

// The most bytes of a proof, as the header has them.
pub const PROOF: usize = 3 + 64 + 32 + 256 * 32;

// The forks for which a change asks room, as the header has them.
const CHANGE_FORKS: usize = 256;

// The SHA-256 of no bytes: the digest of nothing.
pub const NOTHING: Digest = [
    0xe3, 0xb0, 0xc4, 0x42, 0x98, 0xfc, 0x1c, 0x14, 0x9a, 0xfb, 0xf4, 0xc8, 0x99, 0x6f, 0xb9, 0x24,
    0x27, 0xae, 0x41, 0xe4, 0x64, 0x9b, 0x93, 0x4c, 0xa4, 0x95, 0x99, 0x1b, 0x78, 0x52, 0xb8, 0x55,
];

// A key with its value, and a digest with the numbers of two sides.
pub type Entry = [u8; 64];
pub type Fork = [u8; 48];

// What a number names in the memory of a map.
pub enum Part<'a> {
    Nothing,
    Entry(&'a Entry),
    Fork(&'a Fork),
}

impl Part<'_> {
    // The digest of a fork is kept, that of an entry is hashed.
    pub fn digest(&self) -> Digest {
        match self {
            Part::Nothing => NOTHING,
            Part::Entry(entry) => hashed(0, &entry[..32], &entry[32..]),
            Part::Fork(fork) => digest_in(&fork[..], 0),
        }
    }
}

// The digest of a node: of an entry by its key and its value behind 0, of a fork by its two sides' digests behind 1.
pub fn hashed(kind: u8, first: &[u8], second: &[u8]) -> Digest {
    let mut node = [kind; 65];
    node[1..33].copy_from_slice(first);
    node[33..].copy_from_slice(second);
    crate::sha256(&node)
}

// 32 bytes of others.
pub fn digest_in(bytes: &[u8], at: usize) -> Digest {
    let mut digest = [0; 32];
    digest.copy_from_slice(&bytes[at..at + 32]);
    digest
}

// The numbers of a fork's two sides.
pub fn sides_of(fork: &Fork) -> [u64; 2] {
    [32, 40].map(|at| {
        let mut number = [0; 8];
        number.copy_from_slice(&fork[at..at + 8]);
        u64::from_le_bytes(number)
    })
}

// A bit of a key, counted from the highest one of its first byte.
pub fn has_bit(key: &Digest, level: usize) -> bool {
    key[level / 8] >> (7 - level % 8) & 1 == 1
}

// Makes room for so many, a part of which is not asked for.
fn make_room<T: Copy>(memory: &mut Vec<T>, room: usize, empty: T) -> Result<(), Refused> {
    if memory.len() < room {
        let len = room.max(memory.len() + memory.len() / 16);
        memory
            .try_reserve_exact(len - memory.len())
            .map_err(|_| Refused::Memory)?;
        memory.resize(len, empty);
    }
    Ok(())
}

// A number that no other memory has.
fn lineage() -> u64 {
    static NEXT: AtomicU64 = AtomicU64::new(0);
    NEXT.fetch_add(1, Ordering::Relaxed)
}

/// A version of a [`Map`](crate::Map), for [`differences`](crate::Map::differences). It takes no memory of its own.
#[derive(Clone, Copy)]
pub struct MapVersion {
    head: sys::KeptMap,
    lineage: u64,
}

impl fmt::Debug for MapVersion {
    fn fmt(&self, f: &mut fmt::Formatter<'_>) -> fmt::Result {
        f.debug_struct("MapVersion").finish_non_exhaustive()
    }
}

/// A key at which two versions differ, with what the older one and the newer one have there.
pub type Difference = (Digest, Option<Digest>, Option<Digest>);

/// Entries and forks, and which of them a map has.
pub struct Memory {
    pub head: sys::KeptMap,
    entries: Vec<Entry>,
    forks: Vec<Fork>,
    // how many forks the map had when no other ones were there
    own_forks: usize,
    // the same while older heads have their maps
    lineage: u64,
}

impl Clone for Memory {
    fn clone(&self) -> Memory {
        Memory {
            head: self.head,
            entries: self.entries.clone(),
            forks: self.forks.clone(),
            own_forks: self.own_forks,
            lineage: lineage(),
        }
    }
}

impl Memory {
    /// That of the empty map.
    pub fn new() -> Memory {
        Memory {
            head: sys::KeptMap::default(),
            entries: Vec::new(),
            forks: Vec::new(),
            own_forks: 0,
            lineage: lineage(),
        }
    }

    /// What a number names. Each number of the memory names an entry or a fork that is there.
    pub fn part(&self, number: u64) -> Part<'_> {
        if number == 0 {
            return Part::Nothing;
        }
        let place = ((number - 1) / 2) as usize;
        if number % 2 == 1 {
            Part::Entry(&self.entries[place])
        } else {
            Part::Fork(&self.forks[place])
        }
    }

    /// What the map has at a key.
    pub fn get(&self, key: &Digest) -> Option<Digest> {
        let mut value = [0; 32];
        // SAFETY: the value is of this function, and the memories are borrowed with their lengths, as are the head and the key.
        let answer = unsafe {
            sys::paxidore_kept_map_get(
                value.as_mut_ptr(),
                &self.head,
                self.entries.as_ptr().cast(),
                self.entries.len(),
                self.forks.as_ptr().cast(),
                self.forks.len(),
                key.as_ptr(),
            )
        };
        (answer == 0).then_some(value)
    }

    /// The entry with the least key that is not below another.
    pub fn first_from(&self, from: &Digest) -> Option<(Digest, Digest)> {
        let (mut key, mut value) = ([0; 32], [0; 32]);
        // SAFETY: as in `get`.
        let answer = unsafe {
            sys::paxidore_kept_map_next(
                key.as_mut_ptr(),
                value.as_mut_ptr(),
                &self.head,
                self.entries.as_ptr().cast(),
                self.entries.len(),
                self.forks.as_ptr().cast(),
                self.forks.len(),
                from.as_ptr(),
            )
        };
        (answer == 0).then_some((key, value))
    }

    /// The root, each node hashed anew. `Damaged` where memory holds no map.
    pub fn checked_root(&self) -> Result<Digest, Refused> {
        let mut root = [0; 32];
        // SAFETY: as in `get`.
        let answer = unsafe {
            sys::paxidore_kept_map_check(
                root.as_mut_ptr(),
                &self.head,
                self.entries.as_ptr().cast(),
                self.entries.len(),
                self.forks.as_ptr().cast(),
                self.forks.len(),
            )
        };
        match answer {
            0 => Ok(root),
            refused => Err(Refused::of(refused)),
        }
    }

    /// The entries, so many, by rising keys.
    pub fn entries(&self, len: usize) -> Vec<(Digest, Digest)> {
        let (mut entries, mut parts) = (Vec::with_capacity(len), vec![self.head.top]);
        while let Some(number) = parts.pop() {
            match self.part(number) {
                Part::Nothing => (),
                Part::Entry(entry) => entries.push((digest_in(entry, 0), digest_in(entry, 32))),
                Part::Fork(fork) => {
                    let [left, right] = sides_of(fork);
                    parts.extend([right, left]);
                }
            }
        }
        entries
    }

    /// The bytes of the proof of what the map has at a key, a value or nothing. The refusal is `Memory`.
    pub fn prove(&self, key: &Digest) -> Result<Vec<u8>, Refused> {
        crate::written(PROOF, |bytes, room, count| {
            // SAFETY: the buffer has that room, the head and the key are borrowed, and so are the memories with their lengths.
            unsafe {
                sys::paxidore_kept_map_prove(
                    bytes,
                    room,
                    count,
                    &self.head,
                    self.entries.as_ptr().cast(),
                    self.entries.len(),
                    self.forks.as_ptr().cast(),
                    self.forks.len(),
                    key.as_ptr(),
                )
            }
        })
    }

    // The bytes of a tree of the map, which a call writes, and which may want more room.
    fn tree(&self, call: impl Fn(*mut u8, usize, *mut usize) -> i32) -> Result<Vec<u8>, Refused> {
        let mut needed = 0;
        match call(core::ptr::NonNull::dangling().as_ptr(), 0, &mut needed) {
            sys::ROOM => crate::written(needed, call),
            refused => Err(Refused::of(refused)),
        }
    }

    /// The bytes of a tree that shows what the map has at keys that rise, and hides the rest.
    pub fn prove_many(&self, keys: &[Digest]) -> Result<Vec<u8>, Refused> {
        self.tree(|bytes, room, count| {
            // SAFETY: as in `prove`; the keys are a borrowed slice of so many.
            unsafe {
                sys::paxidore_kept_map_prove_many(
                    bytes,
                    room,
                    count,
                    &self.head,
                    self.entries.as_ptr().cast(),
                    self.entries.len(),
                    self.forks.as_ptr().cast(),
                    self.forks.len(),
                    keys.as_ptr().cast(),
                    keys.len(),
                )
            }
        })
    }

    /// The bytes of a tree that shows all that the map has from one key to another, both with them, and hides the rest.
    pub fn prove_range(&self, first: &Digest, last: &Digest) -> Result<Vec<u8>, Refused> {
        self.tree(|bytes, room, count| {
            // SAFETY: as in `prove`.
            unsafe {
                sys::paxidore_kept_map_prove_range(
                    bytes,
                    room,
                    count,
                    &self.head,
                    self.entries.as_ptr().cast(),
                    self.entries.len(),
                    self.forks.as_ptr().cast(),
                    self.forks.len(),
                    first.as_ptr(),
                    last.as_ptr(),
                )
            }
        })
    }

    /// The map as it is.
    pub fn version(&self) -> MapVersion {
        MapVersion {
            head: self.head,
            lineage: self.lineage,
        }
    }

    /// Whether the memory still has the map of a version.
    pub fn keeps(&self, version: &MapVersion) -> bool {
        version.lineage == self.lineage
    }

    /// The least key that is not below another at which the map differs from a version that the memory has.
    pub fn differs(&self, version: &MapVersion, from: &Digest) -> Option<Difference> {
        let (mut key, mut old, mut new) = ([0; 32], [0; 32], [0; 32]);
        let (mut has_old, mut has_new) = (0, 0);
        // SAFETY: as in `get`; what is written is of this function.
        let answer = unsafe {
            sys::paxidore_kept_map_differ(
                key.as_mut_ptr(),
                old.as_mut_ptr(),
                &mut has_old,
                new.as_mut_ptr(),
                &mut has_new,
                &version.head,
                &self.head,
                self.entries.as_ptr().cast(),
                self.entries.len(),
                self.forks.as_ptr().cast(),
                self.forks.len(),
                from.as_ptr(),
            )
        };
        (answer == 0).then_some((
            key,
            (has_old == 1).then_some(old),
            (has_new == 1).then_some(new),
        ))
    }

    // How many forks belong to the map.
    fn fork_count(&self) -> usize {
        let (mut count, mut parts) = (0, vec![self.head.top]);
        while let Some(number) = parts.pop() {
            if let Part::Fork(fork) = self.part(number) {
                count += 1;
                parts.extend(sides_of(fork));
            }
        }
        count
    }

    /// Copies what belongs to the map of so many entries, where a third of the forks no longer does, and returns the memory of before.
    pub fn leave_out(&mut self, len: usize) -> Result<Option<Memory>, Refused> {
        if self.head.forks < self.own_forks + self.own_forks / 2 + 1024 {
            return Ok(None);
        }
        let (mut entries, mut forks, mut head) = (Vec::new(), Vec::new(), sys::KeptMap::default());
        make_room(&mut entries, len, [0; 64])?;
        make_room(&mut forks, self.fork_count(), [0; 48])?;
        // SAFETY: the heads are of this function and borrowed, and so are the memories with their lengths.
        let answer = unsafe {
            sys::paxidore_kept_map_copy(
                &mut head,
                entries.as_mut_ptr().cast(),
                entries.len(),
                forks.as_mut_ptr().cast(),
                forks.len(),
                &self.head,
                self.entries.as_ptr().cast(),
                self.entries.len(),
                self.forks.as_ptr().cast(),
                self.forks.len(),
            )
        };
        if answer != 0 {
            return Err(Refused::of(answer));
        }
        let copy = Memory {
            head,
            entries,
            forks,
            own_forks: head.forks,
            lineage: lineage(),
        };
        Ok(Some(std::mem::replace(self, copy)))
    }

    /// Puts a value at a key, or removes it where there is none.
    pub fn set(&mut self, key: &Digest, value: Option<&Digest>) -> Result<(), Refused> {
        make_room(&mut self.entries, self.head.entries + 1, [0; 64])?;
        make_room(&mut self.forks, self.head.forks + CHANGE_FORKS, [0; 48])?;
        let (entries, forks) = (self.entries.as_mut_ptr(), self.forks.as_mut_ptr());
        let (entries_room, forks_room) = (self.entries.len(), self.forks.len());
        // SAFETY: the memories are borrowed with their lengths, as are the head, the key and the value.
        let answer = unsafe {
            match value {
                Some(value) => sys::paxidore_kept_map_put(
                    &mut self.head,
                    entries.cast(),
                    entries_room,
                    forks.cast(),
                    forks_room,
                    key.as_ptr(),
                    value.as_ptr(),
                ),
                None => sys::paxidore_kept_map_remove(
                    &mut self.head,
                    entries.cast(),
                    entries_room,
                    forks.cast(),
                    forks_room,
                    key.as_ptr(),
                ),
            }
        };
        if answer != 0 {
            return Err(Refused::of(answer));
        }
        Ok(())
    }

    /// Hashes what is not hashed yet, and returns the root.
    pub fn hash(&mut self) -> Result<Digest, Refused> {
        let mut root = [0; 32];
        // SAFETY: the memories are borrowed with their lengths, as are the root and the head.
        let answer = unsafe {
            sys::paxidore_kept_map_root(
                root.as_mut_ptr(),
                &mut self.head,
                self.entries.as_mut_ptr().cast(),
                self.entries.len(),
                self.forks.as_mut_ptr().cast(),
                self.forks.len(),
            )
        };
        match answer {
            0 => Ok(root),
            refused => Err(Refused::of(refused)),
        }
    }
}
