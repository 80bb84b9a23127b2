//! The proved reader: `outside_take` of crates/outside_c, which takes a superframe as `State::take` does.

use crate::{Beside, Lists, BYTES};

extern "C" {
    // A slice is a pointer and a length.
    fn outside_take(
        radius: u8,
        beside: *mut u8,
        beside_length: usize,
        bytes: *const u8,
        bytes_length: usize,
        samples: *mut i16,
        samples_length: usize,
        marks: *mut u8,
        marks_length: usize,
    ) -> u8;
}

pub fn take(radius: u8, beside: &mut Beside, bytes: &[u8; BYTES], lists: &mut Lists) -> u8 {
    let mut packed = beside.packed();
    // SAFETY: every pointer is that of a slice of the length beside it, lent for the call alone; the function asks for nothing else.
    let number = unsafe {
        outside_take(
            radius,
            packed.as_mut_ptr(),
            packed.len(),
            bytes.as_ptr(),
            bytes.len(),
            lists.samples.as_mut_ptr(),
            lists.samples.len(),
            lists.marks.as_mut_ptr(),
            lists.marks.len(),
        )
    };
    *beside = Beside::unpacked(&packed);
    number
}
