// The axis of the proved library.
use crate::calls::Bed;

#[link(name = "bench", kind = "static")]
extern "C" {
    fn longbed_calls(
        drive: u8,
        profile: u8,
        outer: u32,
        inner: u32,
        calls: *const u8,
        calls_len: usize,
        out: *mut i32,
        out_len: usize,
    ) -> u8;
}

// Makes the calls of a new axis and writes their answers to `out`. Answers 0, or why not all of them were made.
pub fn run_calls(bed: Bed, calls: &[u8], out: &mut [i32]) -> u8 {
    // Both slices are valid for their lengths, and the call keeps neither.
    unsafe {
        longbed_calls(
            bed.drive,
            bed.profile,
            bed.outer,
            bed.inner,
            calls.as_ptr(),
            calls.len(),
            out.as_mut_ptr(),
            out.len(),
        )
    }
}
