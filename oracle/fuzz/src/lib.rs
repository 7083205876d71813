//! What libFuzzer calls with each image it makes up, which is read in both
//! editions and answered for both layouts. Its coverage is that of the Rust
//! importer and check; the library has none of its own.

use std::slice;

use oracle::answer::{Whole, PROGRAM_PLACES};
use oracle::format::Entry;
use oracle::library::{expected, Call};
use oracle::ours::ours;

/// Compares number, value and both tables of the program's lengths, by each
/// entry; ends the process on a difference.
///
/// # Safety
///
/// `image` points to `length` bytes.
#[no_mangle]
pub unsafe extern "C" fn LLVMFuzzerTestOneInput(image: *const u8, length: usize) -> i32 {
    // No pointer is promised for no bytes.
    let image = match length {
        0 => &[],
        _ => unsafe { slice::from_raw_parts(image, length) },
    };
    Entry::ALL.iter().for_each(|&entry| compare(image, entry));
    0
}

fn compare(image: &[u8], entry: Entry) {
    let call = Call::Check {
        sizes: PROGRAM_PLACES.sizes as usize,
        findings: PROGRAM_PLACES.findings as usize,
    };
    // What takes too long has no answer to compare with.
    if let Ok(expected) = expected(&Whole::of(image, entry), call) {
        let ours = ours(entry).reply(image, call);
        assert!(
            ours == expected,
            "{entry:?}\nRust: {expected}\nours: {ours}"
        );
    }
}
