//! Handles of the library, which are freed when they go, and are each in one call at a time, since a call takes one by `&mut`.
use crate::error::{Error, SearchError};
use crate::flags::Flags;
use crate::sys::{self, Failure, RawHandle, TextRange};
use std::ptr;
use std::sync::{Mutex, MutexGuard, OnceLock, PoisonError};

/// What the library holds for us: tables, a pattern, or a search.
pub struct Handle(RawHandle);

// SAFETY: the library lets a handle go from thread to thread.
unsafe impl Send for Handle {}

impl Drop for Handle {
    fn drop(&mut self) {
        // SAFETY: the handle was empty or filled by the library, and is not used again.
        unsafe { sys::regress_raw_free(&mut self.0) }
    }
}

/// A text as the library searches it. The borrow keeps it as it is, and what its type promises is what the library asks: a `str`
/// is UTF-8. `Ascii` is made by [`Text::ascii`] alone, which looks.
#[derive(Clone, Copy, Debug)]
pub enum Text<'t> {
    Utf8(&'t str),
    Ascii(&'t str),
    Utf16(&'t [u16]),
    Ucs2(&'t [u16]),
}

impl<'t> Text<'t> {
    /// A text, by the calls for ASCII where it is ASCII.
    pub fn ascii(text: &'t str) -> Self {
        if text.is_ascii() {
            Text::Ascii(text)
        } else {
            Text::Utf8(text)
        }
    }
}

/// How many matches were found, and why the search for more ended early, if it did.
pub type Found = (usize, Option<SearchError>);

/// Takes a lock. What it guards is whole at each moment, so that a panic elsewhere does no harm.
pub fn lock<T>(mutex: &Mutex<T>) -> MutexGuard<'_, T> {
    mutex.lock().unwrap_or_else(PoisonError::into_inner)
}

/// Panics where a call was refused for a reason that no argument of ours has but too little memory.
fn expect_done(code: i32) -> usize {
    match usize::try_from(code) {
        Ok(count) => count,
        Err(_) if code == sys::OUT_OF_MEMORY => panic!("out of memory"),
        Err(_) => {
            panic!("{}", copied(|buffer, room, written| unsafe { sys::regress_raw_error_text(code, buffer, room, written) }))
        }
    }
}

/// Why a search ended early, if it did. Panics where it was refused for a reason that no argument of ours has.
fn ended_early(code: i32) -> Option<SearchError> {
    match code {
        sys::OUT_OF_MEMORY => Some(SearchError::OutOfMemory),
        sys::TOO_MANY_STEPS => Some(SearchError::TooManySteps),
        _ => {
            expect_done(code);
            None
        }
    }
}

/// The text that a call copies to a buffer, which is made longer where the first one is too short.
fn copied(mut call: impl FnMut(*mut u8, usize, *mut usize) -> i32) -> String {
    let mut buffer = vec![0; 64];
    let mut written = 0;
    let mut code = call(buffer.as_mut_ptr(), buffer.len(), &mut written);
    if code == sys::NO_ROOM {
        buffer.resize(written, 0);
        code = call(buffer.as_mut_ptr(), buffer.len(), &mut written);
    }
    expect_done(code);
    buffer.truncate(written);
    String::from_utf8(buffer).expect("the library writes UTF-8")
}

/// Unicode's tables, made once; each pattern is compiled by a handle of its own, so that none waits for another.
fn tables() -> Handle {
    static TABLES: OnceLock<Mutex<Handle>> = OnceLock::new();
    let tables = TABLES.get_or_init(|| {
        let mut made = Handle::empty();
        // SAFETY: a handle that is empty.
        expect_done(unsafe { sys::regress_raw_tables_unicode(&mut made.0) });
        Mutex::new(made)
    });
    lock(tables).share()
}

impl Handle {
    fn empty() -> Handle {
        Handle(RawHandle { held: ptr::null_mut() })
    }

    /// Another handle of the same tables or the same pattern.
    pub fn share(&mut self) -> Handle {
        let mut other = Handle::empty();
        // SAFETY: two handles, each borrowed for this call alone.
        expect_done(unsafe { sys::regress_raw_share(&mut self.0, &mut other.0) });
        other
    }

    fn compile<T>(call: sys::Compile<T>, pattern: &[T], flags: Flags, limit: usize) -> Result<Handle, Error> {
        let letters = flags.letters();
        let (mut tables, mut made) = (tables(), Handle::empty());
        let mut failure = Failure { code: 0, place: 0, text: [0; 64] };
        // SAFETY: slices with their lengths, and values that are borrowed for this call alone.
        let code = unsafe {
            call(
                pattern.as_ptr(),
                pattern.len(),
                letters.as_ptr(),
                letters.len(),
                limit,
                &mut tables.0,
                &mut made.0,
                &mut failure,
            )
        };
        if code < 0 && failure.code == code && code != sys::OUT_OF_MEMORY {
            return Err(Error::of_failure(&failure));
        }
        expect_done(code);
        Ok(made)
    }

    /// A pattern that is given in UTF-8.
    pub fn of_text(pattern: &str, flags: Flags, limit: usize) -> Result<Handle, Error> {
        Handle::compile(sys::regress_raw_compile_within, pattern.as_bytes(), flags, limit)
    }

    /// A pattern that is given in 16-bit units.
    pub fn of_units(pattern: &[u16], flags: Flags) -> Result<Handle, Error> {
        Handle::compile(sys::regress_raw_compile_units_within, pattern, flags, sys::DEFAULT_LIMIT)
    }

    /// Whether a pattern is linear. Searches of it know of that which are made afterwards.
    pub fn is_linear(&mut self) -> bool {
        // SAFETY: a handle that is borrowed for this call alone.
        expect_done(unsafe { sys::regress_raw_is_linear(&mut self.0) }) == 1
    }

    /// How many steps are enough for each search of a pattern in a text of so many bytes or units, where that is known.
    pub fn linear_steps(&mut self, length: usize) -> Option<usize> {
        let mut steps = sys::NO_BOUND;
        // SAFETY: a handle and a number that are borrowed for this call alone.
        expect_done(unsafe { sys::regress_raw_linear_steps(&mut self.0, length, &mut steps) });
        Some(steps).filter(|&steps| steps != sys::NO_BOUND)
    }

    /// How many capturing groups a pattern has.
    pub fn group_count(&mut self) -> usize {
        // SAFETY: a handle that is borrowed for this call alone.
        expect_done(unsafe { sys::regress_raw_group_count(&mut self.0) })
    }

    /// The name of a group of a pattern, empty where it has none.
    pub fn group_name(&mut self, number: usize) -> String {
        // SAFETY: a handle and a buffer with its length, borrowed for this call alone.
        copied(|buffer, room, written| unsafe { sys::regress_raw_group_name(&mut self.0, number, buffer, room, written) })
    }

    /// A search of a pattern.
    pub fn search(&mut self) -> Handle {
        let mut search = Handle::empty();
        // SAFETY: two handles, each borrowed for this call alone.
        expect_done(unsafe { sys::regress_raw_search_new(&mut self.0, &mut search.0) });
        search
    }

    /// Bounds how many steps a search may take for each match, or takes the bound away.
    pub fn set_max_steps(&mut self, steps: usize) {
        // SAFETY: a handle that is borrowed for this call alone.
        expect_done(unsafe { sys::regress_raw_search_set_max_steps(&mut self.0, steps) });
    }

    /// Finds matches by a search from `start` on, as many as `ranges` has room for, each of `width` ranges; answers how many, and why
    /// it ended early, if it did, and tells in `start` where the search goes on.
    pub fn find_many(&mut self, text: Text<'_>, start: &mut usize, ranges: &mut [TextRange], width: usize) -> Found {
        match text {
            Text::Utf8(text) => self.call(sys::regress_raw_find_many_valid, text.as_bytes(), start, ranges, width),
            Text::Ascii(text) => self.call(sys::regress_raw_find_many_ascii, text.as_bytes(), start, ranges, width),
            Text::Utf16(units) => self.call(sys::regress_raw_find_many_utf16, units, start, ranges, width),
            Text::Ucs2(units) => self.call(sys::regress_raw_find_many_ucs2, units, start, ranges, width),
        }
    }

    fn call<T>(
        &mut self,
        call: sys::FindMany<T>,
        text: &[T],
        start: &mut usize,
        ranges: &mut [TextRange],
        width: usize,
    ) -> Found {
        let mut found = 0;
        // SAFETY: slices with their lengths, and values that are borrowed for this call alone; the text is what its kind promises.
        let code = unsafe {
            call(&mut self.0, text.as_ptr(), text.len(), start, ranges.as_mut_ptr(), ranges.len(), width, &mut found)
        };
        (found, ended_early(code))
    }
}

/// The pattern that matches a text as it is written.
pub fn escaped(text: &str) -> String {
    // SAFETY: a text and a buffer with their lengths, borrowed for this call alone.
    copied(|buffer, room, written| unsafe { sys::regress_raw_escape(text.as_ptr(), text.len(), buffer, room, written) })
}
