//! The declarations of piecepick.h, in its order. Its comments say what each call means, and what its caller must see to.
#![allow(non_camel_case_types)]

use std::marker::{PhantomData, PhantomPinned};

/// A `piecepick_status`. It isn't an enum of Rust, for which a number of a later interface would be undefined behaviour.
pub type piecepick_status = u32;
/// A `piecepick_kind`.
pub type piecepick_kind = u32;
/// A `piecepick_reason`.
pub type piecepick_reason = u32;

/// The interface that these declarations have.
pub const PIECEPICK_ABI: u32 = 1;

/// The picker of one download.
#[repr(C)]
pub struct piecepick_picker {
    _opaque: [u8; 0],
    _unmoved: PhantomData<(*mut u8, PhantomPinned)>,
}

/// The check of one full piece.
#[repr(C)]
pub struct piecepick_job {
    _opaque: [u8; 0],
    _unmoved: PhantomData<(*mut u8, PhantomPinned)>,
}

/// What the picker answers.
#[repr(C)]
#[derive(Clone, Copy, Debug, Default)]
#[allow(missing_docs)]
pub struct piecepick_answer {
    pub kind: piecepick_kind,
    pub piece: u32,
    pub begin: u32,
    pub length: u32,
    pub reason: piecepick_reason,
    pub interesting: u32,
}

/// A SHA-1.
#[repr(C)]
#[derive(Clone, Copy, Debug, Default)]
#[allow(missing_docs)]
pub struct piecepick_digest {
    pub bytes: [u8; 20],
}

/// The choices at open.
#[repr(C)]
#[derive(Clone, Copy, Debug)]
#[allow(missing_docs)]
pub struct piecepick_options {
    pub size: u32,
    pub keeps: u32,
    pub workers: u32,
    pub depth: u32,
    pub deepest: u32,
    pub random: u32,
    pub askers: u32,
    pub open: u32,
    pub rush: u32,
    pub shown: u32,
}

#[allow(missing_docs, clippy::too_many_arguments)]
extern "C" {
    pub fn piecepick_abi() -> u32;
    pub fn piecepick_version() -> u32;
    pub fn piecepick_open(
        picker: *mut *mut piecepick_picker,
        metainfo: *const u8,
        metainfo_len: usize,
        options: *const piecepick_options,
    ) -> piecepick_status;
    pub fn piecepick_open_parts(
        picker: *mut *mut piecepick_picker,
        piece_length: u32,
        total: u64,
        digests: *const u8,
        digests_len: usize,
        options: *const piecepick_options,
    ) -> piecepick_status;
    pub fn piecepick_close(picker: *mut *mut piecepick_picker);
    pub fn piecepick_join(picker: *mut piecepick_picker, worker: u32, answer: *mut piecepick_answer) -> piecepick_status;
    pub fn piecepick_leave(picker: *mut piecepick_picker, worker: u32, answer: *mut piecepick_answer) -> piecepick_status;
    pub fn piecepick_choke(picker: *mut piecepick_picker, worker: u32, answer: *mut piecepick_answer) -> piecepick_status;
    pub fn piecepick_unchoke(picker: *mut piecepick_picker, worker: u32, answer: *mut piecepick_answer) -> piecepick_status;
    pub fn piecepick_have(picker: *mut piecepick_picker, worker: u32, piece: u32, answer: *mut piecepick_answer) -> piecepick_status;
    pub fn piecepick_bits(
        picker: *mut piecepick_picker,
        worker: u32,
        payload: *const u8,
        payload_len: usize,
        answer: *mut piecepick_answer,
    ) -> piecepick_status;
    pub fn piecepick_haves(
        picker: *mut piecepick_picker,
        worker: u32,
        flags: *const u8,
        flags_len: usize,
        answer: *mut piecepick_answer,
    ) -> piecepick_status;
    pub fn piecepick_lack(picker: *mut piecepick_picker, worker: u32, piece: u32, answer: *mut piecepick_answer) -> piecepick_status;
    pub fn piecepick_arrived(
        picker: *mut piecepick_picker,
        worker: u32,
        piece: u32,
        begin: u32,
        bytes: *const u8,
        bytes_len: usize,
        answer: *mut piecepick_answer,
    ) -> piecepick_status;
    pub fn piecepick_received(
        picker: *mut piecepick_picker,
        worker: u32,
        piece: u32,
        begin: u32,
        bytes_len: usize,
        answer: *mut piecepick_answer,
    ) -> piecepick_status;
    pub fn piecepick_release(
        picker: *mut piecepick_picker,
        worker: u32,
        piece: u32,
        begin: u32,
        answer: *mut piecepick_answer,
    ) -> piecepick_status;
    pub fn piecepick_late(
        picker: *mut piecepick_picker,
        worker: u32,
        piece: u32,
        begin: u32,
        answer: *mut piecepick_answer,
    ) -> piecepick_status;
    pub fn piecepick_requested(
        picker: *mut piecepick_picker,
        worker: u32,
        piece: u32,
        begin: u32,
        answer: *mut piecepick_answer,
    ) -> piecepick_status;
    pub fn piecepick_depth(picker: *mut piecepick_picker, worker: u32, depth: u32, answer: *mut piecepick_answer) -> piecepick_status;
    pub fn piecepick_reach(picker: *mut piecepick_picker, worker: u32, level: u32, answer: *mut piecepick_answer) -> piecepick_status;
    pub fn piecepick_alone(picker: *mut piecepick_picker, worker: u32, yes: u32, answer: *mut piecepick_answer) -> piecepick_status;
    pub fn piecepick_next(picker: *mut piecepick_picker, worker: u32, word: u64, answer: *mut piecepick_answer) -> piecepick_status;
    pub fn piecepick_want(
        picker: *mut piecepick_picker,
        flags: *const u8,
        flags_len: usize,
        answer: *mut piecepick_answer,
    ) -> piecepick_status;
    pub fn piecepick_lose(picker: *mut piecepick_picker, piece: u32, answer: *mut piecepick_answer) -> piecepick_status;
    pub fn piecepick_discard(picker: *mut piecepick_picker, piece: u32, begin: u32, answer: *mut piecepick_answer) -> piecepick_status;
    pub fn piecepick_set_level(picker: *mut piecepick_picker, piece: u32, level: u32, answer: *mut piecepick_answer) -> piecepick_status;
    pub fn piecepick_set_levels(
        picker: *mut piecepick_picker,
        levels: *const u8,
        levels_len: usize,
        answer: *mut piecepick_answer,
    ) -> piecepick_status;
    pub fn piecepick_set_in_order(picker: *mut piecepick_picker, rising: u32, answer: *mut piecepick_answer) -> piecepick_status;
    pub fn piecepick_set_in_order_from(picker: *mut piecepick_picker, level: u32, answer: *mut piecepick_answer) -> piecepick_status;
    pub fn piecepick_settle(
        picker: *mut piecepick_picker,
        piece: u32,
        digest: *const piecepick_digest,
        answer: *mut piecepick_answer,
    ) -> piecepick_status;
    pub fn piecepick_verdict(picker: *mut piecepick_picker, piece: u32, passed: u32, answer: *mut piecepick_answer) -> piecepick_status;
    pub fn piecepick_restore(
        picker: *mut piecepick_picker,
        worker: u32,
        piece: u32,
        bytes: *const u8,
        bytes_len: usize,
        digest: *const piecepick_digest,
        answer: *mut piecepick_answer,
    ) -> piecepick_status;
    pub fn piecepick_resume(
        picker: *mut piecepick_picker,
        worker: u32,
        piece: u32,
        passed: u32,
        answer: *mut piecepick_answer,
    ) -> piecepick_status;
    pub fn piecepick_job_take(picker: *mut piecepick_picker, piece: u32, job: *mut *mut piecepick_job) -> piecepick_status;
    pub fn piecepick_job_hash(job: *mut piecepick_job) -> piecepick_status;
    pub fn piecepick_job_settle(picker: *mut piecepick_picker, job: *mut piecepick_job, answer: *mut piecepick_answer) -> piecepick_status;
    pub fn piecepick_job_read(job: *mut piecepick_job, buffer: *mut u8, buffer_len: usize) -> piecepick_status;
    pub fn piecepick_job_close(job: *mut *mut piecepick_job);
    pub fn piecepick_pieces(picker: *mut piecepick_picker, number: *mut u32) -> piecepick_status;
    pub fn piecepick_workers(picker: *mut piecepick_picker, number: *mut u32) -> piecepick_status;
    pub fn piecepick_is_complete(picker: *mut piecepick_picker, number: *mut u32) -> piecepick_status;
    pub fn piecepick_has_wanted(picker: *mut piecepick_picker, number: *mut u32) -> piecepick_status;
    pub fn piecepick_is_in_order(picker: *mut piecepick_picker, number: *mut u32) -> piecepick_status;
    pub fn piecepick_order_from(picker: *mut piecepick_picker, number: *mut u32) -> piecepick_status;
    pub fn piecepick_epoch(picker: *mut piecepick_picker, number: *mut u64) -> piecepick_status;
    pub fn piecepick_has_piece(picker: *mut piecepick_picker, piece: u32, number: *mut u32) -> piecepick_status;
    pub fn piecepick_is_waiting(picker: *mut piecepick_picker, piece: u32, number: *mut u32) -> piecepick_status;
    pub fn piecepick_level(picker: *mut piecepick_picker, piece: u32, number: *mut u32) -> piecepick_status;
    pub fn piecepick_availability(picker: *mut piecepick_picker, piece: u32, number: *mut u32) -> piecepick_status;
    pub fn piecepick_piece_length(picker: *mut piecepick_picker, piece: u32, number: *mut u32) -> piecepick_status;
    pub fn piecepick_blocks(picker: *mut piecepick_picker, piece: u32, number: *mut u32) -> piecepick_status;
    pub fn piecepick_sender(picker: *mut piecepick_picker, piece: u32, index: u32, worker: *mut u32) -> piecepick_status;
    pub fn piecepick_rule(picker: *mut piecepick_picker, piece: u32, index: u32, number: *mut u32) -> piecepick_status;
    pub fn piecepick_askers(picker: *mut piecepick_picker, piece: u32, index: u32, number: *mut u32) -> piecepick_status;
    pub fn piecepick_is_interesting(picker: *mut piecepick_picker, worker: u32, number: *mut u32) -> piecepick_status;
    pub fn piecepick_outstanding(picker: *mut piecepick_picker, worker: u32, number: *mut u32) -> piecepick_status;
    pub fn piecepick_outstanding_at(
        picker: *mut piecepick_picker,
        worker: u32,
        place: u32,
        answer: *mut piecepick_answer,
    ) -> piecepick_status;
    pub fn piecepick_total(picker: *mut piecepick_picker, number: *mut u64) -> piecepick_status;
    pub fn piecepick_name_length(picker: *mut piecepick_picker, number: *mut u64) -> piecepick_status;
    pub fn piecepick_name(picker: *mut piecepick_picker, buffer: *mut u8, buffer_len: usize) -> piecepick_status;
    pub fn piecepick_files(picker: *mut piecepick_picker, number: *mut u64) -> piecepick_status;
    pub fn piecepick_file_length(picker: *mut piecepick_picker, file: u64, number: *mut u64) -> piecepick_status;
    pub fn piecepick_file_parts(picker: *mut piecepick_picker, file: u64, number: *mut u64) -> piecepick_status;
    pub fn piecepick_file_part_length(picker: *mut piecepick_picker, file: u64, part: u64, number: *mut u64) -> piecepick_status;
    pub fn piecepick_file_part(picker: *mut piecepick_picker, file: u64, part: u64, buffer: *mut u8, buffer_len: usize) -> piecepick_status;
    pub fn piecepick_infohash(picker: *mut piecepick_picker, digest: *mut piecepick_digest) -> piecepick_status;
    pub fn piecepick_piece_hash(picker: *mut piecepick_picker, piece: u32, digest: *mut piecepick_digest) -> piecepick_status;
    pub fn piecepick_hash(message: *const u8, message_len: usize, digest: *mut piecepick_digest);
    pub fn piecepick_hash_four(
        first: *const u8,
        first_len: usize,
        second: *const u8,
        second_len: usize,
        third: *const u8,
        third_len: usize,
        fourth: *const u8,
        fourth_len: usize,
        digests: *mut u8,
        digests_len: usize,
    ) -> piecepick_status;
    pub fn piecepick_settle_now(picker: *mut piecepick_picker, piece: u32, answer: *mut piecepick_answer) -> piecepick_status;
    pub fn piecepick_read(picker: *mut piecepick_picker, piece: u32, buffer: *mut u8, buffer_len: usize) -> piecepick_status;
    pub fn piecepick_audit(picker: *mut piecepick_picker) -> piecepick_status;
}
