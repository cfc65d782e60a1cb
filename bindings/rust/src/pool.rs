//! The searches of a regex, behind a lock.
use crate::handle::{lock, Handle};
use crate::sys::NO_BOUND;
use std::fmt;
use std::ops::{Deref, DerefMut};
use std::sync::Mutex;

/// A compiled pattern, and searches of it that no one uses now.
pub struct Pool(Mutex<Kept>);

struct Kept {
    pattern: Handle,
    idle: Vec<Handle>,
    /// Whether the pattern is linear, once that was asked.
    is_linear: Option<bool>,
}

impl Kept {
    /// Whether the pattern is linear. Searches that were made before it was asked do not know of it, so they go.
    fn is_linear(&mut self) -> bool {
        if let Some(known) = self.is_linear {
            return known;
        }
        let known = self.pattern.is_linear();
        self.is_linear = Some(known);
        self.idle.clear();
        known
    }

    /// A search, one that is idle where there is one.
    fn search(&mut self) -> Handle {
        match self.idle.pop() {
            Some(search) => search,
            None => self.pattern.search(),
        }
    }
}

impl Pool {
    pub fn new(pattern: Handle) -> Pool {
        Pool(Mutex::new(Kept { pattern, idle: Vec::new(), is_linear: None }))
    }

    /// A pool of its own for the same pattern, which is not compiled again. What was asked of it is known there too.
    pub fn share(&self) -> Pool {
        let mut kept = lock(&self.0);
        Pool(Mutex::new(Kept { pattern: kept.pattern.share(), idle: Vec::new(), is_linear: kept.is_linear }))
    }

    /// Whether the pattern is linear.
    pub fn is_linear(&self) -> bool {
        lock(&self.0).is_linear()
    }

    /// How many steps are enough for each search in a text of so many bytes or units, where that is known.
    pub fn linear_steps(&self, length: usize) -> Option<usize> {
        let mut kept = lock(&self.0);
        if !kept.is_linear() {
            return None;
        }
        kept.pattern.linear_steps(length)
    }

    /// Takes a search, one that is idle where there is one. The lock is held for that alone.
    pub fn take(&self) -> Taken<'_> {
        let mut kept = lock(&self.0);
        let knows = kept.is_linear.is_some();
        Taken { pool: self, search: Some(kept.search()), is_bounded: false, knows }
    }

    /// Takes a search that may take so many steps for each match.
    pub fn take_within(&self, steps: usize) -> Taken<'_> {
        let mut kept = lock(&self.0);
        kept.is_linear();
        let mut search = kept.search();
        search.set_max_steps(steps);
        Taken { pool: self, search: Some(search), is_bounded: true, knows: true }
    }
}

/// A search that was taken, and is given back without a bound when it goes.
pub struct Taken<'p> {
    pool: &'p Pool,
    search: Option<Handle>,
    is_bounded: bool,
    /// Whether it was made after the pattern was asked whether it is linear.
    knows: bool,
}

impl Deref for Taken<'_> {
    type Target = Handle;

    fn deref(&self) -> &Handle {
        self.search.as_ref().expect("it is there until it goes")
    }
}

impl DerefMut for Taken<'_> {
    fn deref_mut(&mut self) -> &mut Handle {
        self.search.as_mut().expect("it is there until it goes")
    }
}

impl Drop for Taken<'_> {
    fn drop(&mut self) {
        if self.is_bounded {
            self.set_max_steps(NO_BOUND);
        }
        let mut kept = lock(&self.pool.0);
        if self.knows || kept.is_linear.is_none() {
            kept.idle.extend(self.search.take());
        }
    }
}

impl fmt::Debug for Pool {
    fn fmt(&self, f: &mut fmt::Formatter<'_>) -> fmt::Result {
        write!(f, "Pool {{ idle: {} }}", lock(&self.0).idle.len())
    }
}
