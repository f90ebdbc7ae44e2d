//! circomlib's Poseidon hash of 1 to 16 elements of the scalar field of BN254.
//!
//! ```
//! use paxidore::poseidon::{ByteOrder, Table};
//!
//! let mut inputs = [0; 64];
//! (inputs[31], inputs[63]) = (1, 2);
//! let hash = Table::<{ paxidore::poseidon::table_bytes(2) }>::new(2)?.hash(ByteOrder::BigEndian, &inputs)?;
//! assert_eq!(hash[..4], [0x11, 0x5c, 0xc0, 0xf5]);
//! # Ok::<(), paxidore::Refused>(())
//! ```
//!
//! A `Table` of two inputs makes the roots and checks the paths of trees over the hash of two, and `Log` keeps one: LeanIMTs, as
//! Semaphore has them. Their leaves are the elements themselves, with the least byte first, and a node without a sibling is its own
//! parent.

use core::fmt;

use crate::{sys, Digest, Refused};

/// The order of the 32 bytes of an element, and of a hash.
#[derive(Debug, Clone, Copy, PartialEq, Eq, Hash)]
#[repr(u32)]
pub enum ByteOrder {
    /// The least byte first: the canonical bytes of elements.
    LittleEndian = 1,
    /// The greatest byte first, as circom's tools print numbers.
    BigEndian = 2,
}

/// How many bytes are enough for the table of so many inputs.
pub const fn table_bytes(inputs: usize) -> usize {
    9 + 32 * ((inputs + 1) * (inputs + 11) + inputs * (2 * inputs + 1) + 70)
}

/// What the hash of so many inputs runs by, in `N` bytes: `table_bytes` says how many are enough. It is made once, in milliseconds,
/// and any number of threads may borrow it. It needs no allocator of Rust's.
#[derive(Clone)]
pub struct Table<const N: usize> {
    bytes: [u8; N],
    len: usize,
}

impl<const N: usize> fmt::Debug for Table<N> {
    fn fmt(&self, f: &mut fmt::Formatter<'_>) -> fmt::Result {
        f.debug_struct("Table").finish_non_exhaustive()
    }
}

impl<const N: usize> Table<N> {
    /// Makes the table of so many inputs.
    ///
    /// Refusals: `Count` for another count than 1 to 16, `Room` where `N` is too small, `Memory`.
    pub fn new(inputs: usize) -> Result<Table<N>, Refused> {
        let mut table = Table {
            bytes: [0; N],
            len: 0,
        };
        // SAFETY: the pointers are those of values that live through the call, with their lengths.
        done(unsafe {
            sys::paxidore_poseidon_table(table.bytes.as_mut_ptr(), N, &mut table.len, inputs)
        })?;
        Ok(table)
    }

    /// Returns the hash of elements, 32 bytes each and one behind the other, in the same byte order.
    ///
    /// Refusals: `Truncated` for bytes that are not whole elements, `Count` for another count of elements than the table's, `Invalid`
    /// for an element that is not below the modulus, `Memory`.
    pub fn hash(&self, order: ByteOrder, inputs: &[u8]) -> Result<Digest, Refused> {
        let mut digest = [0; 32];
        // SAFETY: as in `new`; `digest` has room for 32 bytes.
        done(unsafe {
            sys::paxidore_poseidon(
                digest.as_mut_ptr(),
                order as u32,
                self.bytes.as_ptr(),
                self.len,
                inputs.as_ptr(),
                inputs.len(),
            )
        })?;
        Ok(digest)
    }
}

/// Trees over the hash of two elements. They are 32 bytes each, the least byte first. Refusals of all: `Count` for a table of another
/// count of inputs, `Memory`.
impl<const N: usize> Table<N> {
    /// Returns the root of elements. Refusals: `Size` for no element, `Invalid` for one that is not below the modulus.
    pub fn root(&self, elements: &[Digest]) -> Result<Digest, Refused> {
        let mut root = [0; 32];
        // SAFETY: as in `new`; `elements` are as many times 32 bytes as they are counted.
        done(unsafe {
            sys::paxidore_poseidon_root(
                root.as_mut_ptr(),
                self.bytes.as_ptr(),
                self.len,
                elements.as_ptr().cast(),
                elements.len(),
            )
        })?;
        Ok(root)
    }

    /// Writes the path of an index in elements, from the element up, to the front of `path`, and returns how many digests it has: at most
    /// 63. Refusals: those of [`root`](Table::root), `Index`, `Room`.
    pub fn path(
        &self,
        path: &mut [Digest],
        elements: &[Digest],
        index: usize,
    ) -> Result<usize, Refused> {
        let mut len = 0;
        // SAFETY: as in `root`.
        done(unsafe {
            sys::paxidore_poseidon_path(
                path.as_mut_ptr().cast(),
                32 * path.len(),
                &mut len,
                self.bytes.as_ptr(),
                self.len,
                elements.as_ptr().cast(),
                elements.len(),
                index,
            )
        })?;
        Ok(len / 32)
    }

    /// Returns whether the bytes of a path show that the element stands at the index among `size` elements with this root.
    ///
    /// `Ok(false)` says that the path was read and leads elsewhere. Refusals: `Size` for no element, `Index`, `Truncated`, `Invalid` where
    /// the path has more bytes, and where the element or a digest of the path is not below the modulus.
    pub fn verify(
        &self,
        root: &Digest,
        size: usize,
        index: usize,
        element: &Digest,
        path: &[u8],
    ) -> Result<bool, Refused> {
        // SAFETY: as in `root`.
        let answer = unsafe {
            sys::paxidore_poseidon_verify(
                self.bytes.as_ptr(),
                self.len,
                root.as_ptr(),
                size,
                index,
                element.as_ptr(),
                path.as_ptr(),
                path.len(),
            )
        };
        match answer {
            0 => Ok(true),
            1 => Ok(false),
            refused => Err(Refused::of(refused)),
        }
    }

    /// Returns the root of a log of `size` elements with more behind them, by its root and size: what Semaphore's `insertMany` comes to.
    ///
    /// Know the size as you know the root: a proof makes the root under each size with as many ones in binary, and what is returned under
    /// a wrong one may be the root of no list. The proof is what `Log::insertion_proof` returns. `Ok(None)` says that it was read and does
    /// not make the root. Refusals: `Size` for a log of no element and for 2^63 and above together, `Truncated`, `Invalid` where the proof
    /// has more bytes, and where an element or a digest of the proof is not below the modulus.
    pub fn verify_insertion(
        &self,
        root: &Digest,
        size: usize,
        elements: &[Digest],
        proof: &[u8],
    ) -> Result<Option<Digest>, Refused> {
        let mut new_root = [0; 32];
        // SAFETY: as in `root`.
        let answer = unsafe {
            sys::paxidore_poseidon_log_verify_insertion(
                new_root.as_mut_ptr(),
                self.bytes.as_ptr(),
                self.len,
                root.as_ptr(),
                size,
                elements.as_ptr().cast(),
                elements.len(),
                proof.as_ptr(),
                proof.len(),
            )
        };
        match answer {
            0 => Ok(Some(new_root)),
            1 => Ok(None),
            refused => Err(Refused::of(refused)),
        }
    }
}

/// A log over the hash of two elements, in memory: a LeanIMT, as Semaphore has it, of any size above 0.
///
/// It keeps the digests of the complete subtrees, the elements themselves among them, fewer than two an element.
///
/// ```
/// use paxidore::poseidon::{table_bytes, Log, Table};
///
/// let table = Table::<{ table_bytes(2) }>::new(2)?;
/// let mut log = Log::new(&table);
/// log.append(&[[1; 32], [2; 32], [3; 32]])?;
/// let path = log.inclusion(3, 1)?;
/// assert!(table.verify(&log.root(3)?, 3, 1, &[2; 32], &path)?);
/// # Ok::<(), paxidore::Refused>(())
/// ```
#[cfg(feature = "std")]
#[derive(Debug, Clone)]
pub struct Log<'a, const N: usize> {
    table: &'a Table<N>,
    size: usize,
    kept: std::vec::Vec<Digest>,
}

#[cfg(feature = "std")]
impl<'a, const N: usize> Log<'a, N> {
    /// Returns the log of no elements. Its calls are refused by `Count` where the table is not of two inputs.
    pub fn new(table: &'a Table<N>) -> Log<'a, N> {
        Log {
            table,
            size: 0,
            kept: std::vec::Vec::new(),
        }
    }

    /// Returns the count of elements.
    pub fn len(&self) -> usize {
        self.size
    }

    /// Returns whether there is no element.
    pub fn is_empty(&self) -> bool {
        self.size == 0
    }

    /// Appends elements, whole or not at all, and returns the new size.
    ///
    /// Refusals: `Count`, `Size` for a size of 2^63 and above, `Invalid` for an element that is not below the modulus, `Memory`.
    pub fn append(&mut self, elements: &[Digest]) -> Result<usize, Refused> {
        let size = self.size.saturating_add(elements.len());
        // SAFETY: the call asks for nothing.
        let room = unsafe { sys::paxidore_log_kept(size) }.saturating_sub(self.kept.len());
        let (mut more, mut count) = (std::vec![[0; 32]; room], 0);
        // SAFETY: as in `Table::root`, and `more` has room for `room` digests that nothing else lends.
        done(unsafe {
            sys::paxidore_poseidon_log_append(
                more.as_mut_ptr().cast(),
                room,
                &mut count,
                self.table.bytes.as_ptr(),
                self.table.len,
                self.kept.as_ptr().cast(),
                self.kept.len(),
                self.size,
                elements.as_ptr().cast(),
                elements.len(),
            )
        })?;
        more.truncate(count);
        self.kept.append(&mut more);
        self.size = size;
        Ok(size)
    }

    /// Changes an element, and hashes the complete subtrees over it: at most one pair a level. Roots and paths of earlier sizes are then
    /// those of the changed elements too. Semaphore sets a member that leaves to 0, and a member's new commitment in place of the old one.
    ///
    /// Refusals: `Count`, `Index`, `Invalid` for an element that is not below the modulus, `Memory`. Each leaves the log as it was.
    pub fn set(&mut self, index: usize, element: &Digest) -> Result<(), Refused> {
        // SAFETY: as in `Table::root`; nothing else borrows the digests that are written.
        done(unsafe {
            sys::paxidore_poseidon_log_set(
                self.kept.as_mut_ptr().cast(),
                self.kept.len(),
                self.table.bytes.as_ptr(),
                self.table.len,
                self.size,
                index,
                element.as_ptr(),
            )
        })
    }

    /// Returns the root of the first `size` elements. Refusals: `Count`, `Size` for more than there are and for none, `Memory`.
    pub fn root(&self, size: usize) -> Result<Digest, Refused> {
        let mut root = [0; 32];
        // SAFETY: as in `Table::root`.
        done(unsafe {
            sys::paxidore_poseidon_log_root(
                root.as_mut_ptr(),
                self.table.bytes.as_ptr(),
                self.table.len,
                self.kept.as_ptr().cast(),
                self.kept.len(),
                size,
            )
        })?;
        Ok(root)
    }

    /// Returns the bytes of the path of an index in the first `size` elements. Refusals: those of [`root`](Log::root), `Index`.
    pub fn inclusion(&self, size: usize, index: usize) -> Result<std::vec::Vec<u8>, Refused> {
        // SAFETY: as in `Table::root`.
        crate::written(63 * 32, |path, room, count| unsafe {
            sys::paxidore_poseidon_log_inclusion(
                path,
                room,
                count,
                self.table.bytes.as_ptr(),
                self.table.len,
                self.kept.as_ptr().cast(),
                self.kept.len(),
                size,
                index,
            )
        })
    }

    /// Returns the bytes of the proof of an insertion behind the first `size` elements, for [`Table::verify_insertion`]: the roots of the
    /// complete subtrees into which they fall, the largest first. Refusals: `Size` for more than there are and for none.
    pub fn insertion_proof(&self, size: usize) -> Result<std::vec::Vec<u8>, Refused> {
        // SAFETY: as in `Table::root`.
        crate::written(63 * 32, |proof, room, count| unsafe {
            sys::paxidore_poseidon_log_insertion(
                proof,
                room,
                count,
                self.kept.as_ptr().cast(),
                self.kept.len(),
                size,
            )
        })
    }
}

fn done(answer: i32) -> Result<(), Refused> {
    match answer {
        0 => Ok(()),
        refused => Err(Refused::of(refused)),
    }
}
