//! The C interface as `hosts/c/railcadence.h` declares it.
//!
//! For hosts whose columns are neither vectors nor slices. The header says what each argument is, and what a pointer must
//! be.

#![allow(missing_docs)]

extern "C" {
    pub fn railcadence_gcra_acquire(
        plans: *const u32,
        plans_len: usize,
        ids: *mut u32,
        ids_len: usize,
        plan_numbers: *mut u8,
        plan_numbers_len: usize,
        tats: *mut u64,
        tats_len: usize,
        newest: *mut u64,
        moment: u64,
        subscriber: u32,
        plan: u32,
        cost: u32,
        out: *mut u64,
    );
    pub fn railcadence_gcra_peek(
        plans: *const u32,
        plans_len: usize,
        ids: *const u32,
        ids_len: usize,
        plan_numbers: *const u8,
        plan_numbers_len: usize,
        tats: *const u64,
        tats_len: usize,
        newest: *const u64,
        moment: u64,
        subscriber: u32,
        plan: u32,
        out: *mut u64,
    );
    pub fn railcadence_gcra_clear(
        ids: *mut u32,
        ids_len: usize,
        plan_numbers: *mut u8,
        plan_numbers_len: usize,
        tats: *mut u64,
        tats_len: usize,
        newest: *mut u64,
        out: *mut u64,
    );
    pub fn railcadence_token_bucket_acquire(
        plans: *const u32,
        plans_len: usize,
        ids: *mut u32,
        ids_len: usize,
        plan_numbers: *mut u8,
        plan_numbers_len: usize,
        levels: *mut u64,
        levels_len: usize,
        lasts: *mut u64,
        lasts_len: usize,
        newest: *mut u64,
        moment: u64,
        subscriber: u32,
        plan: u32,
        cost: u32,
        out: *mut u64,
    );
    pub fn railcadence_token_bucket_peek(
        plans: *const u32,
        plans_len: usize,
        ids: *const u32,
        ids_len: usize,
        plan_numbers: *const u8,
        plan_numbers_len: usize,
        levels: *const u64,
        levels_len: usize,
        lasts: *const u64,
        lasts_len: usize,
        newest: *const u64,
        moment: u64,
        subscriber: u32,
        plan: u32,
        out: *mut u64,
    );
    pub fn railcadence_token_bucket_clear(
        ids: *mut u32,
        ids_len: usize,
        plan_numbers: *mut u8,
        plan_numbers_len: usize,
        levels: *mut u64,
        levels_len: usize,
        lasts: *mut u64,
        lasts_len: usize,
        newest: *mut u64,
        out: *mut u64,
    );
    pub fn railcadence_transcribe(
        text: *const u8,
        text_len: usize,
        ids: *mut u32,
        ids_len: usize,
        plan_numbers: *mut u8,
        plan_numbers_len: usize,
        tats: *mut u64,
        tats_len: usize,
        newest: *mut u64,
        out: *mut u8,
        out_len: usize,
        result: *mut u64,
    );
    pub fn railcadence_http_fields(
        limit: u32,
        period: u32,
        burst: u32,
        moment: u64,
        answer: *const u64,
        out: *mut u64,
    );
}
