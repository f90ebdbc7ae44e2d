//! The entries of a map as bytes, and the map of such bytes where it has the root that is trusted.

use crate::map_memory::{digest_in, has_bit, hashed, NOTHING};
use crate::{Digest, Map, Refused};

// The bytes of an entry: its key, then its value.
const ENTRY: usize = 64;

// The entries that lie in bytes one behind the other.
fn entries_in(bytes: &[u8]) -> impl Iterator<Item = (Digest, Digest)> + '_ {
    let each = bytes.chunks_exact(ENTRY);
    each.map(|entry| (digest_in(entry, 0), digest_in(entry, 32)))
}

// How many first bits a key shares with the next one; none where that is not above it.
fn shared_bits(key: &Digest, next: &Digest) -> Option<usize> {
    let place = key.iter().zip(next).position(|(own, other)| own != other)?;
    let apart = (key[place] ^ next[place]).leading_zeros() as usize;
    (key[place] < next[place]).then_some(8 * place + apart)
}

// The root of the map of some entries; `Invalid` where their keys do not rise. It keeps a digest for each bit of a key at most, so that
// entries of another map, which may need many forks, take no memory.
fn root_of(entries: impl Iterator<Item = (Digest, Digest)>) -> Result<Digest, Refused> {
    let mut entries = entries.peekable();
    // what stands left of an open fork, with the fork's level
    let mut lefts: Vec<(usize, Digest)> = Vec::new();
    // how many forks stand above an entry and the one before it, and above it and the next one
    let (mut digest, mut before) = (NOTHING, 0);
    while let Some((key, value)) = entries.next() {
        let behind = match entries.peek() {
            Some((next, _)) => 1 + shared_bits(&key, next).ok_or(Refused::Invalid)?,
            None => 0,
        };
        digest = hashed(0, &key, &value);
        // the forks of which this key is the last one
        for level in (behind..before).rev() {
            digest = match lefts.last() {
                Some((open, left)) if *open == level => {
                    let fork = hashed(1, left, &digest);
                    lefts.pop();
                    fork
                }
                _ if has_bit(&key, level) => hashed(1, &NOTHING, &digest),
                _ => hashed(1, &digest, &NOTHING),
            };
        }
        if behind > 0 {
            lefts.push((behind - 1, digest));
        }
        before = behind;
    }
    Ok(digest)
}

impl Map {
    /// The entries by rising keys, 64 bytes each: the key, then the value. [`from_bytes`](Map::from_bytes) makes a map of them.
    pub fn to_bytes(&self) -> Vec<u8> {
        let mut bytes = Vec::with_capacity(ENTRY * self.len());
        for (key, value) in self.entries() {
            bytes.extend_from_slice(&key);
            bytes.extend_from_slice(&value);
        }
        bytes
    }

    /// The map of the entries that [`to_bytes`](Map::to_bytes) wrote, where it has this root: that of the map that is trusted.
    ///
    /// The root is compared before the map takes any memory, and once more with that of the library. Refusals: `Truncated` where the
    /// bytes end within an entry, `Invalid` where a key is not above the one before it, `OtherRoot` where the entries have another root,
    /// `Memory`.
    ///
    /// ```
    /// use paxidore::{Map, Refused};
    ///
    /// let mut map = Map::new();
    /// map.insert([1; 32], [10; 32])?;
    /// let mut bytes = map.to_bytes();
    /// assert_eq!(Map::from_bytes(&bytes, map.root())?.get(&[1; 32]), Some([10; 32]));
    /// bytes[40] ^= 1;
    /// assert_eq!(Map::from_bytes(&bytes, map.root()).err(), Some(Refused::OtherRoot));
    /// # Ok::<(), Refused>(())
    /// ```
    pub fn from_bytes(bytes: &[u8], root: &Digest) -> Result<Map, Refused> {
        if bytes.len() % ENTRY != 0 {
            return Err(Refused::Truncated);
        }
        if root_of(entries_in(bytes))? != *root {
            return Err(Refused::OtherRoot);
        }
        let map = Map::of(entries_in(bytes))?;
        if map.root() == root {
            Ok(map)
        } else {
            Err(Refused::OtherRoot)
        }
    }
}
