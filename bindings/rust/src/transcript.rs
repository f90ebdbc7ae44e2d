//! Transcripts: the duplex sponge over Poseidon's permutation.

use crate::{sys, Refused};
use std::marker::PhantomData;
use std::sync::Arc;

// Added to a field's number, it names that field with prepared parameters.
const PREPARED: u32 = 256;

/// The fields that transcripts have.
#[derive(Debug, Clone, Copy, PartialEq, Eq, Hash)]
#[repr(u32)]
pub enum Field {
    /// 2^64 - 2^32 + 1.
    Goldilocks = 1,
    /// 15 * 2^27 + 1.
    BabyBear = 2,
    /// The scalar field of the curve BLS12-381.
    Bls12_381Fr = 3,
    /// The scalar field of the curve BN254.
    Bn254Fr = 4,
}

impl Field {
    /// How many bytes an element takes.
    pub const fn element_bytes(self) -> usize {
        match self {
            Field::Goldilocks => 8,
            Field::BabyBear => 4,
            Field::Bls12_381Fr | Field::Bn254Fr => 32,
        }
    }
}

/// Returns the bytes of ready parameters over `Bls12_381Fr` or `Bn254Fr`, for a rate from 2 to 8 and a capacity of one: those that
/// arkworks and circomlib have.
///
/// Refusals: `Invalid` for another field, `Count` for another rate, `Memory`.
pub fn ready_parameters(field: Field, rate: usize) -> Result<Vec<u8>, Refused> {
    // the longest have 71 rows of constants and 9 of the matrix
    let mut parameters = vec![0; 64 + 80 * (8 + 9 * 32)];
    let mut len = 0;
    // SAFETY: the pointers are those of values that live through the call, with their lengths.
    done(unsafe {
        sys::paxidore_transcript_ready_parameters(
            parameters.as_mut_ptr(),
            parameters.len(),
            &mut len,
            field as u32,
            rate,
        )
    })?;
    parameters.truncate(len);
    Ok(parameters)
}

/// A sponge over a field, with a permutation's parameters as bytes. How elements are cut into calls does not change the result. Bytes
/// are absorbed behind their length, and squeezed out of whole elements.
///
/// An element is its canonical bytes, the least first, and below the modulus.
///
/// The parameters are read once, by `new`; clones share what was made of them.
#[derive(Debug, Clone)]
pub struct Transcript<'a> {
    field: Field,
    prepared: Arc<[u8]>,
    state: Vec<u8>,
    parameters: PhantomData<&'a [u8]>,
}

impl<'a> Transcript<'a> {
    /// Returns a transcript that has absorbed nothing. `paxidore.h` has the bytes of parameters.
    ///
    /// Refusals: `Truncated`, `Invalid` of bytes that are no parameters over the field, `Memory`.
    pub fn new(field: Field, parameters: &'a [u8]) -> Result<Transcript<'a>, Refused> {
        let mut prepared = vec![0; parameters.len()];
        let mut len = 0;
        // SAFETY: the pointers are those of values that live through the call, with their lengths.
        done(unsafe {
            sys::paxidore_transcript_prepare(
                prepared.as_mut_ptr(),
                prepared.len(),
                &mut len,
                field as u32,
                parameters.as_ptr(),
                parameters.len(),
            )
        })?;
        prepared.truncate(len);
        // parameters have a row for each element of the state: its state is the shorter one
        let mut state = vec![0; prepared.len()];
        // SAFETY: as above.
        done(unsafe {
            sys::paxidore_transcript_init(
                state.as_mut_ptr(),
                state.len(),
                &mut len,
                field as u32 + PREPARED,
                prepared.as_ptr(),
                prepared.len(),
            )
        })?;
        state.truncate(len);
        Ok(Transcript {
            field,
            prepared: prepared.into(),
            state,
            parameters: PhantomData,
        })
    }

    /// Absorbs elements, one behind the other. An error leaves the transcript as before.
    ///
    /// Refusals: `Truncated`, `Invalid` of bytes that are no elements, `Memory`.
    pub fn absorb(&mut self, elements: &[u8]) -> Result<(), Refused> {
        // SAFETY: as in `new`.
        done(unsafe {
            sys::paxidore_transcript_absorb(
                self.state.as_mut_ptr(),
                self.state.len(),
                self.field as u32 + PREPARED,
                self.prepared.as_ptr(),
                self.prepared.len(),
                elements.as_ptr(),
                elements.len(),
            )
        })
    }

    /// Absorbs bytes, behind their length. Refusals: `Memory`.
    pub fn absorb_bytes(&mut self, bytes: &[u8]) -> Result<(), Refused> {
        // SAFETY: as in `new`.
        done(unsafe {
            sys::paxidore_transcript_absorb_bytes(
                self.state.as_mut_ptr(),
                self.state.len(),
                self.field as u32 + PREPARED,
                self.prepared.as_ptr(),
                self.prepared.len(),
                bytes.as_ptr(),
                bytes.len(),
            )
        })
    }

    /// Fills a buffer with the next elements.
    ///
    /// Refusals: `Truncated` of a buffer that has not the length of whole elements, `Memory`.
    pub fn squeeze(&mut self, out: &mut [u8]) -> Result<(), Refused> {
        // SAFETY: as in `new`.
        done(unsafe {
            sys::paxidore_transcript_squeeze(
                out.as_mut_ptr(),
                out.len(),
                self.state.as_mut_ptr(),
                self.state.len(),
                self.field as u32 + PREPARED,
                self.prepared.as_ptr(),
                self.prepared.len(),
            )
        })
    }

    /// Fills a buffer with the next bytes. Refusals: `Memory`.
    pub fn squeeze_bytes(&mut self, out: &mut [u8]) -> Result<(), Refused> {
        // SAFETY: as in `new`.
        done(unsafe {
            sys::paxidore_transcript_squeeze_bytes(
                out.as_mut_ptr(),
                out.len(),
                self.state.as_mut_ptr(),
                self.state.len(),
                self.field as u32 + PREPARED,
                self.prepared.as_ptr(),
                self.prepared.len(),
            )
        })
    }
}

fn done(answer: i32) -> Result<(), Refused> {
    match answer {
        0 => Ok(()),
        refused => Err(Refused::of(refused)),
    }
}
