//! The ported library, linked with the feature `ours`.

use crate::format::{Edition, Entry, Layout};
use crate::library::{Library, Verdict};

type Read = unsafe extern "C" fn(
    image: *const u8,
    image_len: usize,
    starts: *mut usize,
    starts_len: usize,
) -> Verdict;

type Check = unsafe extern "C" fn(
    image: *const u8,
    image_len: usize,
    sizes: *mut u64,
    sizes_len: usize,
    findings: *mut u32,
    findings_len: usize,
) -> Verdict;

extern "C" {
    fn vexil_read(image: *const u8, _: usize, starts: *mut usize, _: usize) -> Verdict;
    fn vexil_read_two(image: *const u8, _: usize, starts: *mut usize, _: usize) -> Verdict;
    fn vexil_sizes(image: *const u8, _: usize, sizes: *mut u64, _: usize) -> Verdict;
}

/// Declares functions that are called as `vexil_check` is.
macro_rules! checks {
    ($($name:ident)*) => {
        extern "C" {
            $(fn $name(
                image: *const u8,
                _: usize,
                sizes: *mut u64,
                _: usize,
                findings: *mut u32,
                _: usize,
            ) -> Verdict;)*
        }
    };
}

checks! { vexil_check vexil_check_two vexil_check_aligned vexil_check_aligned_two }

pub const OURS: Library = Library {
    entry: Entry::ONE,
    read: |image, starts| read(vexil_read, image, starts),
    sizes: Some(sizes),
    check: Some(|image, sizes, findings| check(vexil_check, image, sizes, findings)),
};

pub const OURS_TWO: Library = Library {
    entry: Entry::TWO,
    read: |image, starts| read(vexil_read_two, image, starts),
    sizes: None,
    check: Some(|image, sizes, findings| check(vexil_check_two, image, sizes, findings)),
};

pub const OURS_ALIGNED: Library = Library {
    entry: Entry::ALIGNED,
    sizes: None,
    check: Some(|image, sizes, findings| check(vexil_check_aligned, image, sizes, findings)),
    ..OURS
};

pub const OURS_ALIGNED_TWO: Library = Library {
    entry: Entry::ALIGNED_TWO,
    check: Some(|image, sizes, findings| check(vexil_check_aligned_two, image, sizes, findings)),
    ..OURS_TWO
};

/// The functions of an entry.
pub fn ours(entry: Entry) -> Library {
    match (entry.edition, entry.layout) {
        (Edition::One, Layout::Packed) => OURS,
        (Edition::Two, Layout::Packed) => OURS_TWO,
        (Edition::One, Layout::Aligned) => OURS_ALIGNED,
        (Edition::Two, Layout::Aligned) => OURS_ALIGNED_TWO,
    }
}

// SAFETY of all calls: the pointers come from slices and go with their
// lengths; the library reads the first, writes the others and keeps none.

fn read(read: Read, image: &[u8], starts: &mut [usize]) -> Verdict {
    unsafe {
        read(
            image.as_ptr(),
            image.len(),
            starts.as_mut_ptr(),
            starts.len(),
        )
    }
}

fn sizes(image: &[u8], sizes: &mut [u64]) -> Verdict {
    unsafe { vexil_sizes(image.as_ptr(), image.len(), sizes.as_mut_ptr(), sizes.len()) }
}

fn check(check: Check, image: &[u8], sizes: &mut [u64], findings: &mut [u32]) -> Verdict {
    unsafe {
        check(
            image.as_ptr(),
            image.len(),
            sizes.as_mut_ptr(),
            sizes.len(),
            findings.as_mut_ptr(),
            findings.len(),
        )
    }
}
