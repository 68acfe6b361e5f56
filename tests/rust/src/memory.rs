//! Memory that is lent to an entry: guard bytes around it, and a page without access before and after, so that a read or write past
//! the lent part is either seen or stops the program.

use std::ffi::c_void;

extern "C" {
    fn mmap(at: *mut c_void, length: usize, rights: i32, kind: i32, file: i32, from: i64) -> *mut c_void;
    fn mprotect(at: *mut c_void, length: usize, rights: i32) -> i32;
}

const PAGE: usize = 4096;
const ROOM: usize = 64 * PAGE;
const GUARDS: usize = 64;
const GUARD: u8 = 0xa5;
const NO_ACCESS: i32 = 0;
const READ_AND_WRITE: i32 = 3;
const PRIVATE_WITHOUT_FILE: i32 = 0x22;

/// Where in the area the lent part lies: at its low end, in its middle or at its high end.
#[derive(Clone, Copy)]
pub enum Side {
    Low,
    Middle,
    High,
}

/// The area is mapped once and kept until the program ends.
pub struct Area {
    start: *mut u8,
    at: usize,
    length: usize,
}

impl Area {
    pub fn new() -> Self {
        // SAFETY: fresh pages of our own; nothing else refers to them.
        let start = unsafe {
            let whole = ROOM + 2 * PAGE;
            let pages = mmap(std::ptr::null_mut(), whole, NO_ACCESS, PRIVATE_WITHOUT_FILE, -1, 0);
            assert!(pages as isize != -1, "no memory could be mapped");
            let inner = pages.cast::<u8>().add(PAGE);
            let allowed = mprotect(inner.cast(), ROOM, READ_AND_WRITE);
            assert!(allowed == 0, "the memory could not be opened");
            inner
        };
        Area { start, at: 0, length: 0 }
    }

    fn all(&self) -> &[u8] {
        // SAFETY: the pages stay mapped and readable, and are only written through `all_mut` and by the entries.
        unsafe { std::slice::from_raw_parts(self.start, ROOM) }
    }

    fn all_mut(&mut self) -> &mut [u8] {
        // SAFETY: as above; the area is borrowed mutably.
        unsafe { std::slice::from_raw_parts_mut(self.start, ROOM) }
    }

    fn before(&self) -> std::ops::Range<usize> {
        self.at.saturating_sub(GUARDS)..self.at
    }

    fn after(&self) -> std::ops::Range<usize> {
        let end = self.at + self.length;
        end..ROOM.min(end + GUARDS)
    }

    /// Puts the content down with guards around it and gives the place to lend.
    pub fn lend(&mut self, content: &[u8], side: Side) -> *mut u8 {
        assert!(content.len() + 2 * GUARDS < ROOM, "too long for the area");
        self.length = content.len();
        self.at = match side {
            Side::Low => 0,
            Side::Middle => 2 * GUARDS,
            Side::High => ROOM - content.len(),
        };
        let (before, after) = (self.before(), self.after());
        let (at, length) = (self.at, self.length);
        let all = self.all_mut();
        all[before].fill(GUARD);
        all[after].fill(GUARD);
        all[at..at + length].copy_from_slice(content);
        // SAFETY: `at` is within the area, or its end for a content of no bytes.
        unsafe { self.start.add(at) }
    }

    pub fn content(&self) -> &[u8] {
        &self.all()[self.at..self.at + self.length]
    }

    pub fn guards_unchanged(&self) -> bool {
        let all = self.all();
        let mut guards = all[self.before()].iter().chain(&all[self.after()]);
        guards.all(|&byte| byte == GUARD)
    }
}
