//! What the library exports, as `bindings/c/regress.h` tells it. No pointer may be null there, and no handle is in two calls at once.
use std::ffi::c_void;

/// A place of a group that took no part, and where a search goes on that is done.
pub const UNSET: usize = usize::MAX;

pub const OUT_OF_MEMORY: i32 = -1;
pub const NO_ROOM: i32 = -6;
pub const SYNTAX: i32 = -7;
pub const TOO_MANY_STEPS: i32 = -19;

/// How many steps a search may take that has no bound, and what is told where no number of steps is known to be enough.
pub const NO_BOUND: usize = usize::MAX;

/// `REGRESS_DEFAULT_LIMIT`.
pub const DEFAULT_LIMIT: usize = 1_000_000;

/// `regress_handle`.
#[repr(C)]
pub struct RawHandle {
    pub held: *mut c_void,
}

/// `regress_range`.
#[repr(C)]
#[derive(Clone, Copy)]
pub struct TextRange {
    pub start: usize,
    pub end: usize,
}

/// `regress_error`.
#[repr(C)]
pub struct Failure {
    pub code: i32,
    pub place: usize,
    pub text: [u8; 64],
}

/// A call that compiles a pattern, of bytes or of units, within a limit.
pub type Compile<T> = unsafe extern "C" fn(
    pattern: *const T,
    length: usize,
    flags: *const u8,
    flags_length: usize,
    limit: usize,
    tables: *mut RawHandle,
    out: *mut RawHandle,
    error: *mut Failure,
) -> i32;

/// A call that finds many matches in a text of bytes or of units.
pub type FindMany<T> = unsafe extern "C" fn(
    search: *mut RawHandle,
    text: *const T,
    length: usize,
    start: *mut usize,
    ranges: *mut TextRange,
    count: usize,
    width: usize,
    found: *mut usize,
) -> i32;

extern "C" {
    pub fn regress_raw_free(handle: *mut RawHandle);
    pub fn regress_raw_share(handle: *mut RawHandle, out: *mut RawHandle) -> i32;
    pub fn regress_raw_tables_unicode(out: *mut RawHandle) -> i32;
    pub fn regress_raw_compile_within(
        pattern: *const u8,
        length: usize,
        flags: *const u8,
        flags_length: usize,
        limit: usize,
        tables: *mut RawHandle,
        out: *mut RawHandle,
        error: *mut Failure,
    ) -> i32;
    pub fn regress_raw_compile_units_within(
        pattern: *const u16,
        length: usize,
        flags: *const u8,
        flags_length: usize,
        limit: usize,
        tables: *mut RawHandle,
        out: *mut RawHandle,
        error: *mut Failure,
    ) -> i32;
    pub fn regress_raw_is_linear(pattern: *mut RawHandle) -> i32;
    pub fn regress_raw_linear_steps(pattern: *mut RawHandle, length: usize, steps: *mut usize) -> i32;
    pub fn regress_raw_group_count(pattern: *mut RawHandle) -> i32;
    pub fn regress_raw_group_name(
        pattern: *mut RawHandle,
        number: usize,
        buffer: *mut u8,
        room: usize,
        written: *mut usize,
    ) -> i32;
    pub fn regress_raw_escape(text: *const u8, length: usize, buffer: *mut u8, room: usize, written: *mut usize) -> i32;
    pub fn regress_raw_error_text(code: i32, buffer: *mut u8, room: usize, written: *mut usize) -> i32;
    pub fn regress_raw_search_new(pattern: *mut RawHandle, out: *mut RawHandle) -> i32;
    pub fn regress_raw_search_set_max_steps(search: *mut RawHandle, steps: usize) -> i32;
    pub fn regress_raw_find_many_valid(
        search: *mut RawHandle,
        text: *const u8,
        length: usize,
        start: *mut usize,
        ranges: *mut TextRange,
        count: usize,
        width: usize,
        found: *mut usize,
    ) -> i32;
    pub fn regress_raw_find_many_ascii(
        search: *mut RawHandle,
        text: *const u8,
        length: usize,
        start: *mut usize,
        ranges: *mut TextRange,
        count: usize,
        width: usize,
        found: *mut usize,
    ) -> i32;
    pub fn regress_raw_find_many_utf16(
        search: *mut RawHandle,
        text: *const u16,
        length: usize,
        start: *mut usize,
        ranges: *mut TextRange,
        count: usize,
        width: usize,
        found: *mut usize,
    ) -> i32;
    pub fn regress_raw_find_many_ucs2(
        search: *mut RawHandle,
        text: *const u16,
        length: usize,
        start: *mut usize,
        ranges: *mut TextRange,
        count: usize,
        width: usize,
        found: *mut usize,
    ) -> i32;
}
