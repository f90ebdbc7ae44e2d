//! Why calls are refused, and what their answers say.

use crate::sys;
use core::error::Error;
use core::ffi::CStr;
use core::fmt;

/// Why a call was refused.
#[derive(Debug, Clone, Copy, PartialEq, Eq, Hash)]
#[non_exhaustive]
pub enum Refused {
    /// A request for memory was refused.
    Memory,
    /// The bytes of the proof end early, or those of a map's entries within one.
    Truncated,
    /// The bytes are no proof for these indexes: of others, not canonical, or with bytes behind; or the keys of a map's entries do
    /// not rise.
    Invalid,
    /// The proof is for a tree of another size.
    Height,
    /// No tree has this count of leaves: a tree has 2, 4, 8, 16 .. of them, or the memory is not that of such a tree; or no log
    /// continues one of the old size, or the log has fewer entries.
    Size,
    /// The lengths of the leaves do not sum to that of their bytes. Only `multi_verify_flat` and `verify_multi_inclusion_flat` give it.
    Lengths,
    /// There are not as many leaves as indexes; or no hash takes so many elements.
    Count,
    /// An index is not below the count of leaves, or there is none, or indexes of a log do not rise.
    Index,
    /// The room is too short that a caller has for a table or a path.
    Room,
    /// The file is no log's.
    NoLog,
    /// The file of a log ends before the digests of the log's size.
    Short,
    /// The file has the title of a log's, and neither of its two slots is whole; or its first sector was lost while the log was
    /// open.
    DamagedHead,
    /// The file of a log has a digest that is not the one that was stored, or states another root.
    Damaged,
    /// The witness of changes hides what they need.
    Hidden,
    /// The text is no policy.
    NoPolicy,
    /// A signature that names a key is none by it.
    BadSignature,
    /// The log did not sign the checkpoint, or too few witnesses did.
    NotSigned,
    /// The checkpoint is of another origin.
    OtherOrigin,
    /// The entries of a map have another root than the one that is trusted. Only `Map::from_bytes` gives it.
    OtherRoot,
    /// Another answer of a library that is newer than this crate.
    Other(i32),
}

impl Refused {
    pub(crate) fn of(answer: i32) -> Refused {
        match answer {
            -1 => Refused::Memory,
            -2 => Refused::Truncated,
            -3 => Refused::Invalid,
            -4 => Refused::Height,
            -5 => Refused::Size,
            -6 => Refused::Lengths,
            -7 => Refused::Count,
            -8 => Refused::Index,
            -9 => Refused::Room,
            -11 => Refused::NoLog,
            -12 => Refused::Short,
            -13 => Refused::DamagedHead,
            -14 => Refused::Damaged,
            -15 => Refused::Hidden,
            -16 => Refused::NoPolicy,
            -17 => Refused::BadSignature,
            -18 => Refused::NotSigned,
            -19 => Refused::OtherOrigin,
            other => Refused::Other(other),
        }
    }
}

impl fmt::Display for Refused {
    fn fmt(&self, f: &mut fmt::Formatter<'_>) -> fmt::Result {
        match self {
            Refused::Memory => f.write_str("a request for memory was refused"),
            Refused::Truncated => f.write_str("the bytes end early"),
            Refused::Invalid => f.write_str("the bytes are not what was asked for"),
            Refused::Height => f.write_str("the proof is for a tree of another size"),
            Refused::Size => f.write_str("no tree or log has this size"),
            Refused::Lengths => {
                f.write_str("the lengths of the leaves do not sum to that of their bytes")
            }
            Refused::Count => {
                f.write_str("there are not as many leaves, or elements, as asked for")
            }
            Refused::Index => f.write_str("there is no index, or no leaf at one"),
            Refused::Room => f.write_str("the room is too short"),
            Refused::NoLog => f.write_str("the file is no log"),
            Refused::Short => f.write_str("the file of the log ends early"),
            Refused::DamagedHead => f.write_str("the head of the log's file is damaged"),
            Refused::Damaged => {
                f.write_str("the file of the log, or the memory of the map, is damaged")
            }
            Refused::Hidden => f.write_str("the tree of the map hides what is needed"),
            Refused::NoPolicy => f.write_str("the text is no policy"),
            Refused::BadSignature => f.write_str("a signature by a key does not hold"),
            Refused::NotSigned => f.write_str("the checkpoint lacks signatures that are asked for"),
            Refused::OtherOrigin => f.write_str("the checkpoint is of another origin"),
            Refused::OtherRoot => f.write_str("the entries of the map have another root"),
            // a newer library has words for it
            Refused::Other(answer) => {
                // SAFETY: the library answers a text of its own for each number, which ends with a zero byte and never changes.
                let text = unsafe { CStr::from_ptr(sys::paxidore_strerror(*answer)) };
                write!(f, "answer {answer}: {}", text.to_str().unwrap_or(""))
            }
        }
    }
}

impl Error for Refused {}

// What a proof shows.
pub(crate) fn verdict(answer: i32) -> Result<bool, Refused> {
    match answer {
        0 => Ok(true),
        1 => Ok(false),
        refused => Err(Refused::of(refused)),
    }
}
