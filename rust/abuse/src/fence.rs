//! Memory between two pages that nobody may touch, so that a read or a write out of bounds ends
//! the program. The only module with `unsafe` code.
#![allow(unsafe_code)]

use std::marker::PhantomData;
use std::{ptr, slice};

const PAGE: usize = 4096;

mod sys {
    use std::ffi::{c_int, c_void};

    pub const NO_ACCESS: c_int = 0;
    pub const READ_WRITE: c_int = 3;
    pub const PRIVATE_ANONYMOUS: c_int = 0x22;

    extern "C" {
        pub fn mmap(
            at: *mut c_void,
            length: usize,
            access: c_int,
            flags: c_int,
            file: c_int,
            offset: i64,
        ) -> *mut c_void;
        pub fn mprotect(at: *mut c_void, length: usize, access: c_int) -> c_int;
    }
}

/// Numbers, all of whose bit patterns are values.
pub trait Plain: Copy {}
impl Plain for u8 {}
impl Plain for u64 {}

/// Room for `most` elements. A part of it is lent so that it begins right after the first guard
/// page, or ends right before the second. The memory is never given back.
pub struct Fenced<T: Plain> {
    start: *mut u8,
    bytes: usize,
    element: PhantomData<T>,
}

impl<T: Plain> Fenced<T> {
    pub fn new(most: usize) -> Fenced<T> {
        let bytes = (most * size_of::<T>()).next_multiple_of(PAGE).max(PAGE);
        let whole = bytes + 2 * PAGE;
        // SAFETY: a new mapping, and a change of access to its inner pages.
        let start = unsafe {
            let flags = sys::PRIVATE_ANONYMOUS;
            let at = sys::mmap(ptr::null_mut(), whole, sys::NO_ACCESS, flags, -1, 0);
            assert!(at as isize != -1, "no memory to fence");
            let inner = at.cast::<u8>().add(PAGE);
            assert_eq!(sys::mprotect(inner.cast(), bytes, sys::READ_WRITE), 0);
            inner
        };
        Fenced { start, bytes, element: PhantomData }
    }

    /// `count` elements beside one of the guard pages, with what was in that place before.
    pub fn lend(&mut self, count: usize, at_the_end: bool) -> &mut [T] {
        let length = count * size_of::<T>();
        assert!(length <= self.bytes);
        let offset = if at_the_end { self.bytes - length } else { 0 };
        // SAFETY: the part lies between the guard pages and is aligned, since pages are and
        // `offset` is a multiple of the element's size; it is borrowed as long as `self` is; any
        // bytes are elements.
        unsafe { slice::from_raw_parts_mut(self.start.add(offset).cast(), count) }
    }

    /// All of the room.
    pub fn all(&mut self) -> &mut [T] {
        self.lend(self.bytes / size_of::<T>(), false)
    }
}

#[cfg(test)]
mod tests {
    use super::*;
    use std::env;
    use std::os::unix::process::ExitStatusExt;
    use std::process::Command;

    #[test]
    fn parts_lie_beside_the_guard_pages() {
        let mut fenced = Fenced::<u64>::new(1000);
        let (first, last) =
            (fenced.lend(3, false).as_ptr_range(), fenced.lend(3, true).as_ptr_range());
        assert_eq!((last.end as usize - first.start as usize) % PAGE, 0);
        assert_eq!(fenced.lend(0, true).len(), 0);
        fenced.all().fill(7);
        assert_eq!(fenced.lend(1000, true)[999], 7);
    }

    /// Touching the byte beyond either end ends a program by a signal.
    #[test]
    fn guard_pages_are_guarded() {
        const SIDE: &str = "ABUSE_TOUCHES";
        if let Some(side) = env::var_os(SIDE) {
            let mut fenced = Fenced::<u8>::new(10);
            let at = fenced.lend(10, side == "end").as_mut_ptr_range();
            let beyond = if side == "end" { at.end } else { at.start.wrapping_sub(1) };
            // SAFETY: none: the page is there so that this ends the program.
            unsafe { beyond.write_volatile(1) };
            return;
        }
        for side in ["start", "end"] {
            let mut touching = Command::new(env::current_exe().unwrap());
            let touching = touching.arg("guard_pages_are_guarded").env(SIDE, side);
            assert_eq!(touching.output().unwrap().status.signal(), Some(11), "{side}");
        }
    }
}
