//! The calls as the headers declare them, under names of this module.

use core::ffi::{c_char, c_int};

// The numbers of hashings.
pub const PLAIN: u32 = 1;
pub const RFC6962: u32 = 2;

// Trees of leaves that are handed over, and trees that are kept, whose lengths count digests.
extern "C" {
    pub fn paxidore_verify(
        hashing: u32,
        root: *const u8,
        size: usize,
        index: usize,
        leaf: *const u8,
        leaf_len: usize,
        path: *const u8,
        path_len: usize,
    ) -> i32;
    pub fn paxidore_multi_verify(
        hashing: u32,
        root: *const u8,
        size: usize,
        indexes: *const usize,
        indexes_count: usize,
        leaves: *const u8,
        leaves_len: usize,
        lengths: *const usize,
        count: usize,
        proof: *const u8,
        proof_len: usize,
    ) -> i32;
    pub fn paxidore_root(
        root: *mut u8,
        hashing: u32,
        leaves: *const u8,
        leaves_len: usize,
        lengths: *const usize,
        count: usize,
    ) -> i32;
    pub fn paxidore_path(
        path: *mut u8,
        path_room: usize,
        path_len: *mut usize,
        hashing: u32,
        leaves: *const u8,
        leaves_len: usize,
        lengths: *const usize,
        count: usize,
        index: usize,
    ) -> i32;
    pub fn paxidore_multi_path(
        proof: *mut u8,
        proof_room: usize,
        proof_len: *mut usize,
        hashing: u32,
        leaves: *const u8,
        leaves_len: usize,
        lengths: *const usize,
        count: usize,
        indexes: *const usize,
        indexes_count: usize,
    ) -> i32;
    pub fn paxidore_tree_build(
        tree: *mut u8,
        tree_len: usize,
        hashing: u32,
        leaves: *const u8,
        leaves_len: usize,
        lengths: *const usize,
        count: usize,
    ) -> i32;
    pub fn paxidore_tree_rebuild(tree: *mut u8, tree_len: usize, hashing: u32) -> i32;
    pub fn paxidore_tree_set(
        tree: *mut u8,
        tree_len: usize,
        hashing: u32,
        index: usize,
        leaf: *const u8,
        leaf_len: usize,
    ) -> i32;
    pub fn paxidore_tree_set_many(
        tree: *mut u8,
        tree_len: usize,
        hashing: u32,
        indexes: *const usize,
        indexes_count: usize,
        leaves: *const u8,
        leaves_len: usize,
        lengths: *const usize,
        count: usize,
    ) -> i32;
    pub fn paxidore_tree_root(root: *mut u8, tree: *const u8, tree_len: usize) -> i32;
    pub fn paxidore_tree_path(
        path: *mut u8,
        path_room: usize,
        path_len: *mut usize,
        tree: *const u8,
        tree_len: usize,
        index: usize,
    ) -> i32;
    pub fn paxidore_tree_multi_path(
        proof: *mut u8,
        proof_room: usize,
        proof_len: *mut usize,
        tree: *const u8,
        tree_len: usize,
        indexes: *const usize,
        indexes_count: usize,
    ) -> i32;
    pub fn paxidore_tree_check(hashing: u32, tree: *const u8, tree_len: usize) -> i32;
    pub fn paxidore_tree_join(
        tree: *mut u8,
        tree_len: usize,
        hashing: u32,
        parts: *const u8,
        parts_len: usize,
        parts_count: usize,
    ) -> i32;
}

/// The state of a BLAKE2s under way. Its members are the library's own.
#[repr(C)]
#[derive(Clone)]
pub struct Blake2sState {
    state: [u32; 8],
    block: [u8; 64],
    len: u64,
}

// Hashes, commitments, clients of logs and transcripts.
extern "C" {
    pub fn paxidore_sha256(digest: *mut u8, input: *const u8, input_len: usize);
    pub fn paxidore_blake2s(digest: *mut u8, input: *const u8, input_len: usize);
    pub fn paxidore_blake2s_init(state: *mut Blake2sState);
    pub fn paxidore_blake2s_update(state: *mut Blake2sState, input: *const u8, input_len: usize);
    pub fn paxidore_blake2s_final(digest: *mut u8, state: *mut Blake2sState);
    pub fn paxidore_blake2s_commit(
        commitment: *mut u8,
        value: *const u8,
        value_len: usize,
        nonce: *const u8,
    );
    pub fn paxidore_blake2s_opens(
        commitment: *const u8,
        value: *const u8,
        value_len: usize,
        nonce: *const u8,
    ) -> i32;
    pub fn paxidore_checkpoint_open(
        root: *mut u8,
        size: *mut usize,
        policy: *const u8,
        policy_len: usize,
        since: u64,
        origin: *const u8,
        origin_len: usize,
        note: *const u8,
        note_len: usize,
    ) -> i32;
    pub fn paxidore_receipt_open(
        root: *mut u8,
        size: *mut usize,
        index: *mut usize,
        policy: *const u8,
        policy_len: usize,
        since: u64,
        origin: *const u8,
        origin_len: usize,
        entry: *const u8,
        entry_len: usize,
        receipt: *const u8,
        receipt_len: usize,
    ) -> i32;
    pub fn paxidore_checkpoint_sign(
        note: *mut u8,
        note_room: usize,
        note_len: *mut usize,
        seed: *const u8,
        name: *const u8,
        name_len: usize,
        origin: *const u8,
        origin_len: usize,
        root: *const u8,
        size: usize,
    ) -> i32;
    pub fn paxidore_verifier_text(
        text: *mut u8,
        text_room: usize,
        text_len: *mut usize,
        name: *const u8,
        name_len: usize,
        key: *const u8,
    ) -> i32;
    pub fn paxidore_ed25519_public_key(key: *mut u8, seed: *const u8);
    pub fn paxidore_ed25519_sign(
        signature: *mut u8,
        seed: *const u8,
        message: *const u8,
        message_len: usize,
    );
    pub fn paxidore_ed25519_verify(
        key: *const u8,
        message: *const u8,
        message_len: usize,
        signature: *const u8,
    ) -> i32;
    pub fn paxidore_log_verify_inclusion(
        root: *const u8,
        size: usize,
        index: usize,
        entry: *const u8,
        entry_len: usize,
        path: *const u8,
        path_len: usize,
    ) -> i32;
    pub fn paxidore_log_verify_consistency(
        old_root: *const u8,
        old_size: usize,
        new_root: *const u8,
        new_size: usize,
        proof: *const u8,
        proof_len: usize,
    ) -> i32;
    pub fn paxidore_transcript_ready_parameters(
        parameters: *mut u8,
        parameters_room: usize,
        parameters_len: *mut usize,
        field: u32,
        rate: usize,
    ) -> i32;
    pub fn paxidore_transcript_prepare(
        prepared: *mut u8,
        prepared_room: usize,
        prepared_len: *mut usize,
        field: u32,
        parameters: *const u8,
        parameters_len: usize,
    ) -> i32;
    pub fn paxidore_transcript_init(
        state: *mut u8,
        state_room: usize,
        state_len: *mut usize,
        field: u32,
        parameters: *const u8,
        parameters_len: usize,
    ) -> i32;
    pub fn paxidore_transcript_absorb(
        state: *mut u8,
        state_len: usize,
        field: u32,
        parameters: *const u8,
        parameters_len: usize,
        elements: *const u8,
        elements_len: usize,
    ) -> i32;
    pub fn paxidore_transcript_absorb_bytes(
        state: *mut u8,
        state_len: usize,
        field: u32,
        parameters: *const u8,
        parameters_len: usize,
        bytes: *const u8,
        bytes_len: usize,
    ) -> i32;
    pub fn paxidore_transcript_squeeze(
        out: *mut u8,
        out_len: usize,
        state: *mut u8,
        state_len: usize,
        field: u32,
        parameters: *const u8,
        parameters_len: usize,
    ) -> i32;
    pub fn paxidore_transcript_squeeze_bytes(
        out: *mut u8,
        out_len: usize,
        state: *mut u8,
        state_len: usize,
        field: u32,
        parameters: *const u8,
        parameters_len: usize,
    ) -> i32;
    pub fn paxidore_poseidon_table(
        table: *mut u8,
        table_room: usize,
        table_len: *mut usize,
        inputs: usize,
    ) -> i32;
    pub fn paxidore_poseidon(
        digest: *mut u8,
        order: u32,
        table: *const u8,
        table_len: usize,
        inputs: *const u8,
        inputs_len: usize,
    ) -> i32;
    pub fn paxidore_poseidon_root(
        root: *mut u8,
        table: *const u8,
        table_len: usize,
        elements: *const u8,
        count: usize,
    ) -> i32;
    pub fn paxidore_poseidon_path(
        path: *mut u8,
        path_room: usize,
        path_len: *mut usize,
        table: *const u8,
        table_len: usize,
        elements: *const u8,
        count: usize,
        index: usize,
    ) -> i32;
    pub fn paxidore_poseidon_verify(
        table: *const u8,
        table_len: usize,
        root: *const u8,
        size: usize,
        index: usize,
        element: *const u8,
        path: *const u8,
        path_len: usize,
    ) -> i32;
    pub fn paxidore_poseidon_log_append(
        more: *mut u8,
        more_room: usize,
        more_len: *mut usize,
        table: *const u8,
        table_len: usize,
        kept: *const u8,
        kept_len: usize,
        size: usize,
        elements: *const u8,
        count: usize,
    ) -> i32;
    pub fn paxidore_poseidon_log_root(
        root: *mut u8,
        table: *const u8,
        table_len: usize,
        kept: *const u8,
        kept_len: usize,
        size: usize,
    ) -> i32;
    pub fn paxidore_poseidon_log_inclusion(
        path: *mut u8,
        path_room: usize,
        path_len: *mut usize,
        table: *const u8,
        table_len: usize,
        kept: *const u8,
        kept_len: usize,
        size: usize,
        index: usize,
    ) -> i32;
    pub fn paxidore_poseidon_log_set(
        kept: *mut u8,
        kept_len: usize,
        table: *const u8,
        table_len: usize,
        size: usize,
        index: usize,
        element: *const u8,
    ) -> i32;
    pub fn paxidore_poseidon_log_insertion(
        proof: *mut u8,
        proof_room: usize,
        proof_len: *mut usize,
        kept: *const u8,
        kept_len: usize,
        size: usize,
    ) -> i32;
    pub fn paxidore_poseidon_log_verify_insertion(
        new_root: *mut u8,
        table: *const u8,
        table_len: usize,
        root: *const u8,
        size: usize,
        elements: *const u8,
        count: usize,
        proof: *const u8,
        proof_len: usize,
    ) -> i32;
    pub fn paxidore_strerror(answer: i32) -> *const c_char;
    pub fn paxidore_version() -> *const c_char;
    pub fn paxidore_cpu() -> *const c_char;
}

// Keepers of logs. Lengths of stored digests and of `more` count digests.
extern "C" {
    pub fn paxidore_log_kept(size: usize) -> usize;
    pub fn paxidore_log_append(
        more: *mut u8,
        more_room: usize,
        more_len: *mut usize,
        kept: *const u8,
        kept_len: usize,
        size: usize,
        entries: *const u8,
        entries_len: usize,
        lengths: *const usize,
        count: usize,
    ) -> i32;
    pub fn paxidore_log_join(
        more: *mut u8,
        more_room: usize,
        more_len: *mut usize,
        kept: *const u8,
        kept_len: usize,
        size: usize,
        part: *const u8,
        part_len: usize,
        part_size: usize,
    ) -> i32;
    pub fn paxidore_log_root(root: *mut u8, kept: *const u8, kept_len: usize, size: usize) -> i32;
    pub fn paxidore_log_inclusion(
        path: *mut u8,
        path_room: usize,
        path_len: *mut usize,
        kept: *const u8,
        kept_len: usize,
        size: usize,
        index: usize,
    ) -> i32;
    pub fn paxidore_log_consistency(
        proof: *mut u8,
        proof_room: usize,
        proof_len: *mut usize,
        kept: *const u8,
        kept_len: usize,
        old_size: usize,
        size: usize,
    ) -> i32;
    pub fn paxidore_log_multi_inclusion(
        proof: *mut u8,
        proof_room: usize,
        proof_len: *mut usize,
        kept: *const u8,
        kept_len: usize,
        size: usize,
        indexes: *const usize,
        indexes_count: usize,
    ) -> i32;
    pub fn paxidore_log_check(kept: *const u8, kept_len: usize, size: usize) -> i32;
    pub fn paxidore_log_verify_inclusion_digest(
        root: *const u8,
        size: usize,
        index: usize,
        digest: *const u8,
        path: *const u8,
        path_len: usize,
    ) -> i32;
    pub fn paxidore_log_verify_multi_inclusion(
        root: *const u8,
        size: usize,
        indexes: *const usize,
        indexes_count: usize,
        entries: *const u8,
        entries_len: usize,
        lengths: *const usize,
        count: usize,
        proof: *const u8,
        proof_len: usize,
    ) -> i32;
}

// The answers that a buffer is too short, and that pieces of a file are to be read first.
pub const ROOM: i32 = -9;
pub const MORE: i32 = -10;

/// Some bytes of a file: where they begin, and how many they are.
#[repr(C)]
#[derive(Clone, Copy)]
pub struct Piece {
    pub at: usize,
    pub len: usize,
}

/// What was read of a log's file, or is to be read.
#[repr(C)]
pub struct LogPieces {
    pub places: *mut Piece,
    pub places_room: usize,
    pub places_len: usize,
    pub bytes: *const u8,
    pub bytes_len: usize,
    pub file_len: usize,
}

/// What is to be written to a log's file.
#[repr(C)]
pub struct LogSteps {
    pub places: *mut Piece,
    pub places_room: usize,
    pub places_len: usize,
    pub bytes: *mut u8,
    pub bytes_room: usize,
    pub bytes_len: usize,
}

// Logs in files.
extern "C" {
    pub fn paxidore_log_file_room(count: usize) -> usize;
    pub fn paxidore_log_file_make(steps: *mut LogSteps, pieces: *mut LogPieces) -> i32;
    pub fn paxidore_log_file_size(size: *mut usize, pieces: *mut LogPieces) -> i32;
    pub fn paxidore_log_file_append(
        steps: *mut LogSteps,
        size: *mut usize,
        pieces: *mut LogPieces,
        entries: *const u8,
        entries_len: usize,
        lengths: *const usize,
        count: usize,
    ) -> i32;
    pub fn paxidore_log_file_root(root: *mut u8, pieces: *mut LogPieces, size: usize) -> i32;
    pub fn paxidore_log_file_inclusion(
        path: *mut u8,
        path_room: usize,
        path_len: *mut usize,
        pieces: *mut LogPieces,
        size: usize,
        index: usize,
    ) -> i32;
    pub fn paxidore_log_file_consistency(
        proof: *mut u8,
        proof_room: usize,
        proof_len: *mut usize,
        pieces: *mut LogPieces,
        old_size: usize,
        size: usize,
    ) -> i32;
    pub fn paxidore_log_file_check(file: *const u8, file_len: usize) -> i32;
}

// Of the system: a lock on an open file, which one process has.
pub const LOCK_EX: c_int = 2;
pub const LOCK_NB: c_int = 4;
pub const LOCK_UN: c_int = 8;

extern "C" {
    pub fn flock(file: c_int, operation: c_int) -> c_int;
}

// Maps.
extern "C" {
    pub fn paxidore_map_verify(
        root: *const u8,
        key: *const u8,
        value: *const u8,
        proof: *const u8,
        proof_len: usize,
    ) -> i32;
    pub fn paxidore_map_verify_absent(
        root: *const u8,
        key: *const u8,
        proof: *const u8,
        proof_len: usize,
    ) -> i32;
    pub fn paxidore_map_root(root: *mut u8, tree: *const u8, tree_len: usize) -> i32;
    pub fn paxidore_map_next(
        next_key: *mut u8,
        next_value: *mut u8,
        tree: *const u8,
        tree_len: usize,
        first: *const u8,
        last: *const u8,
    ) -> i32;
    pub fn paxidore_map_prove(
        proof: *mut u8,
        proof_room: usize,
        proof_len: *mut usize,
        tree: *const u8,
        tree_len: usize,
        key: *const u8,
    ) -> i32;
    pub fn paxidore_map_change(
        new_root: *mut u8,
        rows: *mut u8,
        rows_room: usize,
        rows_len: *mut usize,
        root: *const u8,
        tree: *const u8,
        tree_len: usize,
        keys: *const u8,
        keys_count: usize,
        values: *const u8,
        values_count: usize,
    ) -> i32;
}

/// Which map lies in memory, as the header's `struct paxidore_kept_map`.
#[repr(C)]
#[derive(Clone, Copy, Default)]
pub struct KeptMap {
    pub top: u64,
    pub entries: usize,
    pub forks: usize,
}

// Maps that are kept, whose lengths count entries and forks.
extern "C" {
    pub fn paxidore_kept_map_put(
        map: *mut KeptMap,
        map_entries: *mut u8,
        map_entries_room: usize,
        map_forks: *mut u8,
        map_forks_room: usize,
        key: *const u8,
        value: *const u8,
    ) -> i32;
    pub fn paxidore_kept_map_remove(
        map: *mut KeptMap,
        map_entries: *mut u8,
        map_entries_room: usize,
        map_forks: *mut u8,
        map_forks_room: usize,
        key: *const u8,
    ) -> i32;
    pub fn paxidore_kept_map_root(
        root: *mut u8,
        map: *mut KeptMap,
        map_entries: *mut u8,
        map_entries_room: usize,
        map_forks: *mut u8,
        map_forks_room: usize,
    ) -> i32;
    pub fn paxidore_kept_map_get(
        value: *mut u8,
        map: *const KeptMap,
        map_entries: *const u8,
        map_entries_room: usize,
        map_forks: *const u8,
        map_forks_room: usize,
        key: *const u8,
    ) -> i32;
    pub fn paxidore_kept_map_next(
        next_key: *mut u8,
        next_value: *mut u8,
        map: *const KeptMap,
        map_entries: *const u8,
        map_entries_room: usize,
        map_forks: *const u8,
        map_forks_room: usize,
        from: *const u8,
    ) -> i32;
    pub fn paxidore_kept_map_prove(
        proof: *mut u8,
        proof_room: usize,
        proof_len: *mut usize,
        map: *const KeptMap,
        map_entries: *const u8,
        map_entries_room: usize,
        map_forks: *const u8,
        map_forks_room: usize,
        key: *const u8,
    ) -> i32;
    pub fn paxidore_kept_map_prove_many(
        proof: *mut u8,
        proof_room: usize,
        proof_len: *mut usize,
        map: *const KeptMap,
        map_entries: *const u8,
        map_entries_room: usize,
        map_forks: *const u8,
        map_forks_room: usize,
        keys: *const u8,
        keys_count: usize,
    ) -> i32;
    pub fn paxidore_kept_map_prove_range(
        proof: *mut u8,
        proof_room: usize,
        proof_len: *mut usize,
        map: *const KeptMap,
        map_entries: *const u8,
        map_entries_room: usize,
        map_forks: *const u8,
        map_forks_room: usize,
        first: *const u8,
        last: *const u8,
    ) -> i32;
    pub fn paxidore_kept_map_differ(
        next_key: *mut u8,
        old_value: *mut u8,
        has_old: *mut u8,
        new_value: *mut u8,
        has_new: *mut u8,
        old_map: *const KeptMap,
        map: *const KeptMap,
        map_entries: *const u8,
        map_entries_room: usize,
        map_forks: *const u8,
        map_forks_room: usize,
        from: *const u8,
    ) -> i32;
    pub fn paxidore_kept_map_copy(
        to_map: *mut KeptMap,
        to_entries: *mut u8,
        to_entries_room: usize,
        to_forks: *mut u8,
        to_forks_room: usize,
        map: *const KeptMap,
        map_entries: *const u8,
        map_entries_room: usize,
        map_forks: *const u8,
        map_forks_room: usize,
    ) -> i32;
    pub fn paxidore_kept_map_check(
        root: *mut u8,
        map: *const KeptMap,
        map_entries: *const u8,
        map_entries_room: usize,
        map_forks: *const u8,
        map_forks_room: usize,
    ) -> i32;
}
