//! The C functions as include/tokenmarsh.h has them. The safe types of this crate are made of these.
//!
//! Each takes a pointer and a count for every buffer. The functions themselves hold for any content; what a caller owes is what every
//! C function asks: that each pointer is good for its count, and that no buffer that is written overlaps another.

#[repr(C)]
#[derive(Clone, Copy, Debug, PartialEq, Eq)]
pub struct ReadResult {
    pub refusal: u32,
    pub place: u64,
    pub reached: u64,
    pub words: u64,
}

#[repr(C)]
#[derive(Clone, Copy, Debug, PartialEq, Eq)]
pub struct CompileResult {
    pub refusal: u32,
    pub place: u64,
    pub reached: u64,
    pub forward: u64,
    pub reverse: u64,
}

#[repr(C)]
#[derive(Clone, Copy, Debug, PartialEq, Eq)]
pub struct LiteralsResult {
    pub refusal: u32,
    pub rank: u32,
    pub place: u64,
    pub reached: u64,
    pub count: u64,
}

#[repr(C)]
#[derive(Clone, Copy, Debug, PartialEq, Eq)]
pub struct CheckResult {
    pub refusal: u32,
    pub found: u32,
    pub offset: u64,
}

#[repr(C)]
#[derive(Clone, Copy, Debug, PartialEq, Eq)]
pub struct TailResult {
    pub offset: u64,
    pub length: u64,
}

#[repr(C)]
#[derive(Clone, Copy, Debug, PartialEq, Eq)]
pub struct MirrorResult {
    pub refusal: u32,
    pub words: u64,
}

extern "C" {
    pub fn tm_version() -> u32;
    pub fn tm_read(text: *const u8, text_len: usize, pool: *mut u32, pool_len: usize) -> ReadResult;
    pub fn tm_compile(
        text: *const u8,
        text_len: usize,
        forward: *mut u64,
        forward_len: usize,
        reverse: *mut u64,
        reverse_len: usize,
    ) -> CompileResult;
    pub fn tm_literals(
        text: *const u8,
        text_len: usize,
        bytes: *mut u8,
        bytes_len: usize,
        lengths: *mut u16,
        lengths_len: usize,
    ) -> LiteralsResult;
    pub fn tm_forward(
        program: *const u64,
        program_len: usize,
        haystack: *const u8,
        haystack_len: usize,
        start: usize,
        end: usize,
    ) -> CheckResult;
    pub fn tm_reverse(
        program: *const u64,
        program_len: usize,
        haystack: *const u8,
        haystack_len: usize,
        start: usize,
        end: usize,
    ) -> CheckResult;
    pub fn tm_tail(
        program: *const u64,
        program_len: usize,
        haystack: *const u8,
        haystack_len: usize,
        start: usize,
        end: usize,
    ) -> TailResult;
    pub fn tm_mirror(program: *const u64, program_len: usize, pool: *mut u64, pool_len: usize) -> MirrorResult;
    pub fn tm_sound(program: *const u64, program_len: usize) -> u32;
}
