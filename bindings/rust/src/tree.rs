//! Trees whose digests are kept, so that nothing is rebuilt.

use crate::{sys, written, Digest, Flat, Refused, Trees};

/// A tree whose digests are kept in memory, 32 bytes each: the root first, those of the leaves last (`paxidore.h` has the places).
///
/// The memory is a `Vec<u8>`, or anything else that is seen as bytes: that of a mapped file is, as the crate `memmap2` has it. It does
/// not say its hashing. A path or a root is what stands there, without hashing, so ask [`check`](Tree::check) of memory that others
/// may have written.
///
/// ```
/// use paxidore::{Tree, Trees};
///
/// let mut tree = Tree::build(Trees::RFC6962, &["ann", "bob", "cat", "dan"])?;
/// tree.set(3, b"eve")?;
/// assert!(Trees::RFC6962.verify(&tree.root()?, 4, 3, b"eve", &tree.path(3)?)?);
/// assert!(tree.check()?);
/// # Ok::<(), paxidore::Refused>(())
/// ```
#[derive(Debug, Clone)]
pub struct Tree<M> {
    trees: Trees,
    memory: M,
}

// After so many leaves a build reports its progress.
const STEP: usize = 1024;

// What a call did.
fn done(answer: i32) -> Result<(), Refused> {
    match answer {
        0 => Ok(()),
        refused => Err(Refused::of(refused)),
    }
}

// The digests that bytes are. Of no bytes there are none, which no tree has.
fn digests(bytes: &[u8]) -> Result<usize, Refused> {
    match bytes.len() % 32 {
        0 => Ok(bytes.len() / 32),
        _ => Err(Refused::Size),
    }
}

impl Tree<Vec<u8>> {
    /// The tree above the leaves, in memory of its own. Refusals: `Size`.
    pub fn build<L: AsRef<[u8]>>(trees: Trees, leaves: &[L]) -> Result<Tree<Vec<u8>>, Refused> {
        if leaves.len() < 2 || !leaves.len().is_power_of_two() {
            return Err(Refused::Size);
        }
        Tree::build_in(trees, vec![0; Tree::bytes(leaves.len())], leaves)
    }

    /// As [`build`](Tree::build), calling `progress` after each 1,024 leaves, and at the end, with the count of those that are done.
    pub fn build_with<L: AsRef<[u8]>>(
        trees: Trees,
        leaves: &[L],
        mut progress: impl FnMut(usize),
    ) -> Result<Tree<Vec<u8>>, Refused> {
        if leaves.len() < 2 || !leaves.len().is_power_of_two() {
            return Err(Refused::Size);
        }
        let mut tree = Tree::over(trees, vec![0; Tree::bytes(leaves.len())])?;
        let mut done = 0;
        // each step hashes the places above its leaves; those that later steps lie under are hashed again by these
        for step in leaves.chunks(STEP) {
            let indexes: Vec<usize> = (done..done + step.len()).collect();
            tree.set_many(&indexes, step)?;
            done += step.len();
            progress(done);
        }
        Ok(tree)
    }

    /// The tree over all leaves of some trees of equal size, as threads can build them: their digests are copied, and only those above
    /// them are hashed. There are 1, 2, 4, 8 .. parts, in the hashing that is named. Refusals: `Size`.
    pub fn join<M: AsRef<[u8]>>(trees: Trees, parts: &[Tree<M>]) -> Result<Tree<Vec<u8>>, Refused> {
        let memories: Vec<&[u8]> = parts.iter().map(|part| part.memory.as_ref()).collect();
        let (Some(first), same) = (memories.first(), memories.windows(2)) else {
            return Err(Refused::Size);
        };
        // trees that are not of equal size may be as long together as others that are
        if !same.clone().all(|two| two[0].len() == two[1].len()) {
            return Err(Refused::Size);
        }
        let size = (digests(first)? / 2 + 1).saturating_mul(parts.len());
        let apart = memories.concat();
        let mut memory = vec![0; Tree::bytes(size)];
        // SAFETY: as in `build_in`.
        done(unsafe {
            sys::paxidore_tree_join(
                memory.as_mut_ptr(),
                memory.len() / 32,
                trees.hashing,
                apart.as_ptr(),
                apart.len() / 32,
                parts.len(),
            )
        })?;
        Ok(Tree { trees, memory })
    }

    /// How many bytes a tree of so many leaves has.
    pub const fn bytes(size: usize) -> usize {
        size.saturating_mul(64).saturating_sub(32)
    }
}

impl<M: AsRef<[u8]> + AsMut<[u8]>> Tree<M> {
    /// The tree above the leaves, in memory of [`Tree::bytes`]. Refusals: `Size`, also where the memory has another length.
    pub fn build_in<L: AsRef<[u8]>>(
        trees: Trees,
        mut memory: M,
        leaves: &[L],
    ) -> Result<Tree<M>, Refused> {
        let Flat { bytes, lengths } = Flat::of(leaves);
        let place = memory.as_mut();
        let count = digests(place)?;
        // SAFETY: each pointer with its length is that of a borrowed slice, of which `place` alone is written, and the call asks for
        // nothing else.
        done(unsafe {
            sys::paxidore_tree_build(
                place.as_mut_ptr(),
                count,
                trees.hashing,
                bytes.as_ptr(),
                bytes.len(),
                lengths.as_ptr(),
                lengths.len(),
            )
        })?;
        Ok(Tree { trees, memory })
    }

    /// Changes a leaf: writes its digest and those above it, from the lowest up. Refusals: `Size`, `Index`.
    pub fn set(&mut self, index: usize, leaf: &[u8]) -> Result<(), Refused> {
        let place = self.memory.as_mut();
        let count = digests(place)?;
        // SAFETY: as in `build_in`.
        done(unsafe {
            sys::paxidore_tree_set(
                place.as_mut_ptr(),
                count,
                self.trees.hashing,
                index,
                leaf.as_ptr(),
                leaf.len(),
            )
        })
    }

    /// Changes leaves, one for each index, one after the other. Where the indexes rise, each digest above them is hashed once.
    ///
    /// Refusals: `Size`, `Count`, `Index` also where there is no index.
    pub fn set_many<L: AsRef<[u8]>>(
        &mut self,
        indexes: &[usize],
        leaves: &[L],
    ) -> Result<(), Refused> {
        let Flat { bytes, lengths } = Flat::of(leaves);
        let place = self.memory.as_mut();
        let count = digests(place)?;
        // SAFETY: as in `build_in`.
        done(unsafe {
            sys::paxidore_tree_set_many(
                place.as_mut_ptr(),
                count,
                self.trees.hashing,
                indexes.as_ptr(),
                indexes.len(),
                bytes.as_ptr(),
                bytes.len(),
                lengths.as_ptr(),
                lengths.len(),
            )
        })
    }

    /// Writes all digests above those of the leaves that stand there. Refusals: `Size`.
    pub fn rebuild(&mut self) -> Result<(), Refused> {
        let place = self.memory.as_mut();
        let count = digests(place)?;
        // SAFETY: as in `build_in`.
        done(unsafe { sys::paxidore_tree_rebuild(place.as_mut_ptr(), count, self.trees.hashing) })
    }
}

impl<M: AsRef<[u8]>> Tree<M> {
    /// The tree that stands in this memory. It is not checked: only its length is looked at, by each call. Refusals: `Size`.
    pub fn over(trees: Trees, memory: M) -> Result<Tree<M>, Refused> {
        let tree = Tree { trees, memory };
        tree.root()?;
        Ok(tree)
    }

    /// The root: the digest that stands first. Refusals: `Size`.
    pub fn root(&self) -> Result<Digest, Refused> {
        let place = self.memory.as_ref();
        let count = digests(place)?;
        let mut root = [0; 32];
        // SAFETY: as in `build_in`, and `root` has room for 32 bytes that nothing else lends.
        done(unsafe { sys::paxidore_tree_root(root.as_mut_ptr(), place.as_ptr(), count) })?;
        Ok(root)
    }

    /// The bytes of the path of an index, as it stands there. Refusals: `Size`, `Index`.
    pub fn path(&self, index: usize) -> Result<Vec<u8>, Refused> {
        let place = self.memory.as_ref();
        let count = digests(place)?;
        let room = 16 + crate::path_digests(count / 2 + 1);
        // SAFETY: as in `build_in`, and the buffer has room for `room` bytes that nothing else lends.
        written(room, |path, room, path_len| unsafe {
            sys::paxidore_tree_path(path, room, path_len, place.as_ptr(), count, index)
        })
    }

    /// The bytes of the multi-proof of some indexes, in any order, as it stands there; it shows them rising and each once.
    ///
    /// Refusals: `Size`, `Index` also where there is no index, `Memory`.
    pub fn multi_path(&self, indexes: &[usize]) -> Result<Vec<u8>, Refused> {
        let place = self.memory.as_ref();
        let count = digests(place)?;
        let size = count / 2 + 1;
        let room = crate::multi_path_room(size, indexes.len());
        // SAFETY: as in `path`.
        written(room, |proof, room, proof_len| unsafe {
            sys::paxidore_tree_multi_path(
                proof,
                room,
                proof_len,
                place.as_ptr(),
                count,
                indexes.as_ptr(),
                indexes.len(),
            )
        })
    }

    /// Whether each digest above those of the leaves is the hash of the two below it. It hashes as much as
    /// [`rebuild`](Tree::rebuild). Refusals: `Size`.
    pub fn check(&self) -> Result<bool, Refused> {
        let place = self.memory.as_ref();
        let count = digests(place)?;
        // SAFETY: as in `build_in`.
        crate::verdict(unsafe {
            sys::paxidore_tree_check(self.trees.hashing, place.as_ptr(), count)
        })
    }

    /// How many leaves the tree has.
    #[allow(clippy::len_without_is_empty)]
    pub fn len(&self) -> usize {
        self.memory.as_ref().len() / 64 + 1
    }

    /// The memory.
    pub fn memory(&self) -> &M {
        &self.memory
    }

    /// The memory, with the tree in it.
    pub fn into_memory(self) -> M {
        self.memory
    }
}
