//! The archive's entries for Rust, as include/hammerloom.h declares them for C; sizes, numbers and rules are there.

extern "C" {
    pub fn hammerloom_run(
        sheet: *const u8,
        sheet_len: usize,
        script: *const u8,
        script_len: usize,
        answers: *mut u8,
        answers_len: usize,
    ) -> u32;

    pub fn hammerloom_run_wide(
        sheet: *const u8,
        sheet_len: usize,
        script: *const u8,
        script_len: usize,
        answers: *mut u8,
        answers_len: usize,
    ) -> u32;
}
