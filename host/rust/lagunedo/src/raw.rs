//! The calls as `lagunedo.h` declares them: a slice is a pointer and then its
//! length, and answers go to memory that the caller lends. The crate's own
//! functions are these with Rust's types.
//!
//! They are public for a caller whose memory is not Rust's, and for tests of
//! what a refused call leaves in the memory for its answers.
//!
//! # Safety
//!
//! Of every call: each pointer is not null, even if its length is 0; what
//! is lent may be read (behind `*mut`: written too) over its whole length; and
//! what is lent to be written overlaps nothing else that is lent.

use crate::Job;

extern "C" {
    /// [`aes_encipher`](crate::aes_encipher).
    pub fn lagunedo_aes_encipher(
        key: *const u8,
        key_length: usize,
        block: *mut u8,
        block_length: usize,
    ) -> u32;

    /// [`aes_decipher`](crate::aes_decipher).
    pub fn lagunedo_aes_decipher(
        key: *const u8,
        key_length: usize,
        block: *mut u8,
        block_length: usize,
    ) -> u32;

    /// [`eme2_encipher`](crate::eme2_encipher).
    pub fn lagunedo_eme2_encipher(
        key: *const u8,
        key_length: usize,
        ad: *const u8,
        ad_length: usize,
        message: *mut u8,
        message_length: usize,
    ) -> u32;

    /// [`eme2_decipher`](crate::eme2_decipher).
    pub fn lagunedo_eme2_decipher(
        key: *const u8,
        key_length: usize,
        ad: *const u8,
        ad_length: usize,
        message: *mut u8,
        message_length: usize,
    ) -> u32;

    /// [`check`](crate::check): on 0 the five counts are written, on
    /// [`FAULT`](crate::FAULT) the slot, on a refusal nothing.
    pub fn lagunedo_check(
        store: *const u8,
        store_length: usize,
        fault: *mut u32,
        used: *mut u32,
        free: *mut u32,
        clear: *mut u32,
        old_key: *mut u32,
        new_key: *mut u32,
    ) -> u32;

    /// [`read`](crate::read).
    pub fn lagunedo_read(
        old_key: *const u8,
        old_key_length: usize,
        new_key: *const u8,
        new_key_length: usize,
        store: *const u8,
        store_length: usize,
        sheet: u32,
        text: *mut u8,
        text_length: usize,
        length: *mut u32,
        revision: *mut u32,
    ) -> u32;

    /// [`add`](crate::add).
    pub fn lagunedo_add(
        old_key: *const u8,
        old_key_length: usize,
        new_key: *const u8,
        new_key_length: usize,
        store: *mut u8,
        store_length: usize,
        sheet: u32,
        text: *const u8,
        text_length: usize,
        revision: *mut u32,
    ) -> u32;

    /// [`revise`](crate::revise).
    pub fn lagunedo_revise(
        old_key: *const u8,
        old_key_length: usize,
        new_key: *const u8,
        new_key_length: usize,
        store: *mut u8,
        store_length: usize,
        sheet: u32,
        seen: u32,
        text: *const u8,
        text_length: usize,
        revision: *mut u32,
    ) -> u32;

    /// [`remove`](crate::remove).
    pub fn lagunedo_remove(store: *mut u8, store_length: usize, sheet: u32) -> u32;

    /// [`step`](crate::step).
    pub fn lagunedo_step(
        old_key: *const u8,
        old_key_length: usize,
        new_key: *const u8,
        new_key_length: usize,
        store: *mut u8,
        store_length: usize,
        place: *mut u64,
        outcome: *mut u32,
    ) -> u32;

    /// [`job_step`](crate::job_step).
    pub fn lagunedo_job_step(
        job: *mut Job,
        old_key: *const u8,
        old_key_length: usize,
        new_key: *const u8,
        new_key_length: usize,
        store: *mut u8,
        store_length: usize,
        outcome: *mut u32,
    ) -> u32;

    /// [`xts_encipher`](crate::xts_encipher).
    pub fn lagunedo_xts_encipher(
        key: *const u8,
        key_length: usize,
        number: u64,
        unit: *mut u8,
        unit_length: usize,
    ) -> u32;

    /// [`xts_decipher`](crate::xts_decipher).
    pub fn lagunedo_xts_decipher(
        key: *const u8,
        key_length: usize,
        number: u64,
        unit: *mut u8,
        unit_length: usize,
    ) -> u32;

    /// [`xts_block`](crate::xts_block).
    pub fn lagunedo_xts_block(
        key: *const u8,
        key_length: usize,
        number: u64,
        unit: *const u8,
        unit_length: usize,
        k: u64,
        block: *mut [u8; 16],
    ) -> u32;

    /// [`add_xts`](crate::add_xts).
    pub fn lagunedo_add_xts(
        xts_key: *const u8,
        xts_key_length: usize,
        number: u64,
        unit: *const u8,
        unit_length: usize,
        old_key: *const u8,
        old_key_length: usize,
        new_key: *const u8,
        new_key_length: usize,
        store: *mut u8,
        store_length: usize,
        sheet: u32,
        revision: *mut u32,
    ) -> u32;
}
