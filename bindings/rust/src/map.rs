//! Maps with one root, for whoever keeps one in memory and for clients.

#[cfg(feature = "std")]
use crate::map_memory::{has_bit, sides_of, Difference, MapVersion, Memory, Part, NOTHING, PROOF};
use crate::{sys, verdict, Digest, Refused};
#[cfg(feature = "std")]
use std::collections::{HashMap, HashSet};
#[cfg(feature = "std")]
use std::fmt;

/// The checks of a map's proofs. With the feature `std` it is also a map that is kept.
#[cfg(not(feature = "std"))]
#[derive(Debug)]
pub enum Map {}

impl Map {
    /// Whether the bytes of a proof show that the map with this root has this at the key: a value, or nothing.
    ///
    /// Where it is `Ok(true)`, every map with this root has this at the key, or two different nodes with one SHA-256 are at hand.
    /// Refusals: `Truncated` and `Invalid` for bytes that are no proof, `Memory`.
    pub fn verify(
        root: &Digest,
        key: &Digest,
        value: Option<&Digest>,
        proof: &[u8],
    ) -> Result<bool, Refused> {
        let (root, key) = (root.as_ptr(), key.as_ptr());
        // SAFETY: as in `Trees::verify`.
        verdict(unsafe {
            match value {
                Some(value) => {
                    sys::paxidore_map_verify(root, key, value.as_ptr(), proof.as_ptr(), proof.len())
                }
                None => sys::paxidore_map_verify_absent(root, key, proof.as_ptr(), proof.len()),
            }
        })
    }
}

// The key that follows, where there is one.
#[cfg(feature = "std")]
fn above_of(key: &Digest) -> Option<Digest> {
    let mut above = *key;
    for byte in above.iter_mut().rev() {
        let (next, is_over) = byte.overflowing_add(1);
        *byte = next;
        if !is_over {
            return Some(above);
        }
    }
    None
}

#[cfg(feature = "std")]
const ROW: usize = 97;

/// A map with one root, with keys and values of 32 bytes, and proofs of what it has and has not. It takes at most some 190 bytes an
/// entry, and 12 KiB. Now and then it is copied without what no longer belongs to it, and meanwhile takes some 320 bytes an entry.
///
/// Hash other values first. Keys should be hashes: whoever chooses keys can make a neighbour's proof longer. The root is the same for
/// each map with these entries, whatever the order of changes.
///
/// ```
/// use paxidore::Map;
///
/// let mut map = Map::new();
/// map.insert([1; 32], [10; 32])?;
/// let proof = map.prove(&[2; 32])?;
/// assert!(Map::verify(map.root(), &[2; 32], None, &proof)?);
/// # Ok::<(), paxidore::Refused>(())
/// ```
#[cfg(feature = "std")]
#[derive(Clone)]
pub struct Map {
    root: Digest,
    len: usize,
    memory: Memory,
}

#[cfg(feature = "std")]
impl fmt::Debug for Map {
    fn fmt(&self, f: &mut fmt::Formatter<'_>) -> fmt::Result {
        f.debug_struct("Map")
            .field("len", &self.len)
            .finish_non_exhaustive()
    }
}

#[cfg(feature = "std")]
impl Default for Map {
    fn default() -> Map {
        Map::new()
    }
}

// The part of a tree of which only the digest is shown.
#[cfg(feature = "std")]
fn push_hidden(tree: &mut Vec<u8>, digest: &Digest) {
    if *digest == NOTHING {
        tree.push(2);
    } else {
        tree.push(3);
        tree.extend_from_slice(digest);
    }
}

// Changes as the library takes them: the first keys get the values, and those behind them are removed.
#[cfg(feature = "std")]
struct Changes {
    keys: Vec<Digest>,
    values: Vec<Digest>,
}

#[cfg(feature = "std")]
impl Changes {
    fn of(changes: &[(Digest, Option<Digest>)]) -> Changes {
        let last: HashMap<Digest, Option<Digest>> = changes.iter().copied().collect();
        let (mut keys, mut values) = (Vec::new(), Vec::new());
        for (key, value) in &last {
            if let Some(value) = value {
                keys.push(*key);
                values.push(*value);
            }
        }
        let removed = last.iter().filter(|change| change.1.is_none());
        keys.extend(removed.map(|change| *change.0));
        Changes { keys, values }
    }

    // The new root and the rows of the new tree, where the tree has this root.
    fn make(&self, root: &Digest, tree: &[u8]) -> Result<Option<(Digest, Vec<u8>)>, Refused> {
        let (mut new_root, mut count) = ([0; 32], 0);
        // each value may part two keys that share some bits; the library says where that is not enough
        let mut rows = vec![0; ROW * (tree.len() / 33 + 4 * self.values.len() + 8)];
        loop {
            // SAFETY: the buffers have these lengths, and each other pointer is that of a borrowed slice of this length.
            let answer = unsafe {
                sys::paxidore_map_change(
                    new_root.as_mut_ptr(),
                    rows.as_mut_ptr(),
                    rows.len(),
                    &mut count,
                    root.as_ptr(),
                    tree.as_ptr(),
                    tree.len(),
                    self.keys.as_ptr().cast(),
                    self.keys.len(),
                    self.values.as_ptr().cast(),
                    self.values.len(),
                )
            };
            match answer {
                0 => {
                    rows.truncate(count);
                    return Ok(Some((new_root, rows)));
                }
                1 => return Ok(None),
                -9 => rows.resize(count, 0),
                refused => return Err(Refused::of(refused)),
            }
        }
    }
}

#[cfg(feature = "std")]
impl Map {
    /// An empty map.
    pub fn new() -> Map {
        Map {
            root: NOTHING,
            len: 0,
            memory: Memory::new(),
        }
    }

    /// How many entries it has.
    pub fn len(&self) -> usize {
        self.len
    }

    /// Whether it has no entry.
    pub fn is_empty(&self) -> bool {
        self.len == 0
    }

    /// The root.
    pub fn root(&self) -> &Digest {
        &self.root
    }

    /// What it has at a key.
    pub fn get(&self, key: &Digest) -> Option<Digest> {
        self.memory.get(key)
    }

    /// The entry with the least key that is not below `from`, if there is one: what stands in a range of keys is found without all others.
    pub fn first_from(&self, from: &Digest) -> Option<(Digest, Digest)> {
        self.memory.first_from(from)
    }

    /// The entries by rising keys.
    pub fn entries(&self) -> Vec<(Digest, Digest)> {
        self.memory.entries(self.len)
    }

    /// The bytes of the proof of what it has at a key, a value or nothing, for [`verify`](Map::verify). The refusal is `Memory`.
    pub fn prove(&self, key: &Digest) -> Result<Vec<u8>, Refused> {
        self.memory.prove(key)
    }

    /// Makes changes in one step, one after the other: a key gets its value, or is removed where that is `None`. Each node is hashed once.
    /// The refusal is `Memory`, and leaves the map as it was.
    pub fn change(&mut self, changes: &[(Digest, Option<Digest>)]) -> Result<(), Refused> {
        self.memory.leave_out(self.len)?;
        // what a change writes stands behind all that an earlier head has
        let (head, len, mut aside) = (self.memory.head, self.len, None);
        match self.make(changes, &mut aside) {
            Ok(root) => {
                self.root = root;
                Ok(())
            }
            Err(refused) => {
                if let Some(memory) = aside {
                    self.memory = memory;
                }
                (self.memory.head, self.len) = (head, len);
                Err(refused)
            }
        }
    }

    /// Whether each node, hashed anew, leads to the root. It is `Damaged` where the memory does not hold the tree of a map.
    pub fn check(&self) -> Result<bool, Refused> {
        Ok(self.memory.checked_root()? == self.root)
    }

    // Makes changes, one after the other, and returns the root. Where many of them copy the map, the memory of before stands aside.
    fn make(
        &mut self,
        changes: &[(Digest, Option<Digest>)],
        aside: &mut Option<Memory>,
    ) -> Result<Digest, Refused> {
        for (key, value) in changes {
            if let Some(memory) = self.memory.leave_out(self.len)? {
                aside.get_or_insert(memory);
            }
            let had = self.get(key).is_some();
            self.memory.set(key, value.as_ref())?;
            self.len = self.len + usize::from(value.is_some()) - usize::from(had);
        }
        self.memory.hash()
    }

    // The map of entries whose keys are different. What no longer belongs to it is left out on the way.
    pub(crate) fn of(entries: impl Iterator<Item = (Digest, Digest)>) -> Result<Map, Refused> {
        let mut map = Map::new();
        for (key, value) in entries {
            map.memory.leave_out(map.len)?;
            map.memory.set(&key, Some(&value))?;
            map.len += 1;
        }
        map.root = map.memory.hash()?;
        Ok(map)
    }

    /// Puts a value at a key. The refusal is `Memory`, and leaves the map as it was.
    pub fn insert(&mut self, key: Digest, value: Digest) -> Result<(), Refused> {
        self.change(&[(key, Some(value))])
    }

    /// Removes a key. A map that has nothing there stays as it is. The refusal is `Memory`, and leaves the map as it was.
    pub fn remove(&mut self, key: &Digest) -> Result<(), Refused> {
        self.change(&[(*key, None)])
    }

    // Of numbers, each behind the one above it, those below which each key is removed.
    fn cleared(&self, shown: &[u64], removed: &[Digest]) -> HashSet<u64> {
        let removed: HashSet<&[u8]> = removed.iter().map(|key| &key[..]).collect();
        let mut gone = HashSet::new();
        for number in shown.iter().rev() {
            let is_gone = match self.memory.part(*number) {
                Part::Nothing => true,
                Part::Entry(entry) => removed.contains(&entry[..32]),
                Part::Fork(fork) => sides_of(fork)
                    .iter()
                    .all(|side| *side == 0 || gone.contains(side)),
            };
            if is_gone {
                gone.insert(*number);
            }
        }
        gone
    }

    /// The bytes of the tree that shows what changes need, from which [`changed_root`](Map::changed_root) follows them without the map.
    pub fn witness(&self, changes: &[(Digest, Option<Digest>)]) -> Vec<u8> {
        let Changes { keys, values } = Changes::of(changes);
        // the parts of the tree in their order, with what stands beside those that no key's way meets
        let mut made: Vec<(u64, Option<u64>)> = Vec::new();
        let all: Vec<usize> = (0..keys.len()).collect();
        let mut parts: Vec<(u64, usize, Vec<usize>, Option<u64>)> =
            vec![(self.memory.head.top, 0, all, None)];
        while let Some((number, level, own, other)) = parts.pop() {
            made.push((number, other));
            if let (Part::Fork(fork), None) = (self.memory.part(number), other) {
                let [left, right] = sides_of(fork);
                let (ones, zeros): (Vec<usize>, Vec<usize>) =
                    own.into_iter().partition(|i| has_bit(&keys[*i], level));
                let (no_left, no_right) = (zeros.is_empty(), ones.is_empty());
                parts.push((right, level + 1, ones, no_right.then_some(left)));
                parts.push((left, level + 1, zeros, no_left.then_some(right)));
            }
        }
        let met = made.iter().filter(|(_, other)| other.is_none());
        let met: Vec<u64> = met.map(|(number, _)| *number).collect();
        let gone = self.cleared(&met, &keys[values.len()..]);
        let mut tree = Vec::new();
        for (number, other) in made {
            let is_shown = other.map_or(true, |other| gone.contains(&other));
            match self.memory.part(number) {
                Part::Entry(entry) if is_shown => {
                    tree.push(0);
                    tree.extend_from_slice(entry);
                }
                Part::Fork(fork) if is_shown => {
                    tree.push(1);
                    // the sides of a fork that stands alone once others are removed are hidden
                    if other.is_some() {
                        for side in sides_of(fork) {
                            push_hidden(&mut tree, &self.memory.part(side).digest());
                        }
                    }
                }
                part => push_hidden(&mut tree, &part.digest()),
            }
        }
        tree
    }

    /// The root after changes of the map with this root, by a witness of them; `None` where the witness has another root.
    ///
    /// Each map with the old root has the new one after the changes, or two different nodes with one SHA-256 are at hand. Refusals:
    /// `Truncated` and `Invalid` for bytes that are no witness, `Hidden` where it hides what the changes need, `Memory`.
    pub fn changed_root(
        root: &Digest,
        changes: &[(Digest, Option<Digest>)],
        witness: &[u8],
    ) -> Result<Option<Digest>, Refused> {
        let made = Changes::of(changes).make(root, witness)?;
        Ok(made.map(|(new_root, _)| new_root))
    }

    /// The bytes of the proof of what a tree's bytes show at a key, as those of a [`witness`](Map::witness). Refusals:
    /// `Truncated` and `Invalid` for bytes that are no tree, `Hidden` where the tree hides it, `Memory`.
    pub fn prove_by_tree(tree: &[u8], key: &Digest) -> Result<Vec<u8>, Refused> {
        crate::written(PROOF, |bytes, room, count| {
            // SAFETY: the buffer has that room, and each other pointer is that of a borrowed slice of this length.
            unsafe {
                sys::paxidore_map_prove(bytes, room, count, tree.as_ptr(), tree.len(), key.as_ptr())
            }
        })
    }

    /// The map as it is now, for [`differences`](Map::differences). A change that copies the map without what no longer belongs to it
    /// loses the version.
    pub fn version(&self) -> MapVersion {
        self.memory.version()
    }

    /// The keys at which the map differs from an older version of it, rising, each with what that has there and what the map has. It
    /// costs what the difference asks for. `None` where the version is no longer kept, or is another map's.
    pub fn differences(
        &self,
        version: &MapVersion,
    ) -> Option<impl Iterator<Item = Difference> + '_> {
        let version = *version;
        let mut from = Some([0; 32]);
        self.memory.keeps(&version).then(|| {
            std::iter::from_fn(move || {
                let found = self.memory.differs(&version, &from?);
                from = found.as_ref().and_then(|(key, _, _)| above_of(key));
                found
            })
        })
    }

    /// The bytes of a tree that shows what the map has at these keys, in any order, and hides the rest. The refusal is `Memory`.
    pub fn prove_many(&self, keys: &[Digest]) -> Result<Vec<u8>, Refused> {
        let mut rising = keys.to_vec();
        rising.sort_unstable();
        self.memory.prove_many(&rising)
    }

    /// The bytes of a tree that shows all that the map has from one key to another, both with them, for
    /// [`verify_range`](Map::verify_range). The refusal is `Memory`.
    pub fn prove_range(&self, first: &Digest, last: &Digest) -> Result<Vec<u8>, Refused> {
        self.memory.prove_range(first, last)
    }

    /// All entries from one key to another, both with them, of the map with this root, by the bytes of a tree
    /// ([`prove_range`](Map::prove_range)); `None` where the tree has another root.
    ///
    /// Every map with this root has these there and no others, or two different nodes with one SHA-256 are at hand. Refusals:
    /// `Truncated` and `Invalid` for bytes that are no tree, `Hidden` where the tree hides a part that may have an entry there,
    /// `Memory`.
    pub fn verify_range(
        root: &Digest,
        first: &Digest,
        last: &Digest,
        tree: &[u8],
    ) -> Result<Option<Vec<(Digest, Digest)>>, Refused> {
        if Map::root_of_tree(tree)? != *root {
            return Ok(None);
        }
        let (mut entries, mut from) = (Vec::new(), Some(*first));
        while let Some(above) = from {
            let (mut key, mut value) = ([0; 32], [0; 32]);
            // SAFETY: the key and the value are of this function, and the tree is a borrowed slice, as are both bounds.
            let answer = unsafe {
                sys::paxidore_map_next(
                    key.as_mut_ptr(),
                    value.as_mut_ptr(),
                    tree.as_ptr(),
                    tree.len(),
                    above.as_ptr(),
                    last.as_ptr(),
                )
            };
            match answer {
                0 => entries.push((key, value)),
                1 => break,
                refused => return Err(Refused::of(refused)),
            }
            from = above_of(&key);
        }
        Ok(Some(entries))
    }

    /// The root of the maps that a tree's bytes show. Refusals: `Truncated` and `Invalid` for bytes that are no tree, `Memory`.
    pub fn root_of_tree(tree: &[u8]) -> Result<Digest, Refused> {
        let mut root = [0; 32];
        // SAFETY: the root has 32 bytes, and the tree is a borrowed slice.
        match unsafe { sys::paxidore_map_root(root.as_mut_ptr(), tree.as_ptr(), tree.len()) } {
            0 => Ok(root),
            refused => Err(Refused::of(refused)),
        }
    }
}
