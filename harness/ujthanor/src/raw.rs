//! The declarations of `include/ujthanor.h`, for those who have pointers rather than slices. [`crate::calls`] needs no `unsafe`.
//!
//! # Safety
//!
//! For each call, as the header says: a pointer with a length points to that many entries, aligned, that may be read (`table`, `out`
//! and the `row` of fragment and join: also written), and may be null only where the length is 0. `number`, `images` and `depth` point
//! to an object that may be written, whatever the answer; they are never null. What is written shares no byte with anything else that
//! the call is lent, and nobody else touches it, or writes what is only read, while the call runs.

extern "C" {
    pub fn ujthanor_check(
        file: *const u8,
        file_len: usize,
        table: *mut u64,
        table_len: usize,
        budget: usize,
        number: *mut u64,
        images: *mut u64,
    ) -> u32;

    pub fn ujthanor_page(
        file: *const u8,
        file_len: usize,
        page: *const u8,
        page_len: usize,
        number: *mut u64,
    ) -> u32;

    pub fn ujthanor_fragment(
        file: *const u8,
        file_len: usize,
        fragment: *const u8,
        fragment_len: usize,
        row: *mut u64,
        row_len: usize,
        number: *mut u64,
    ) -> u32;

    pub fn ujthanor_join(
        file: *const u8,
        file_len: usize,
        left: *const u64,
        left_len: usize,
        right: *const u64,
        right_len: usize,
        row: *mut u64,
        row_len: usize,
        number: *mut u64,
    ) -> u32;

    pub fn ujthanor_net_depth(
        file: *const u8,
        file_len: usize,
        row: *const u64,
        row_len: usize,
        number: *mut u64,
        depth: *mut i32,
    ) -> u32;

    pub fn ujthanor_split(
        file: *const u8,
        file_len: usize,
        out: *mut u8,
        out_len: usize,
        number: *mut u64,
    ) -> u32;
}
