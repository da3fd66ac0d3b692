//! The proved functions, by the static library that `rt lib` builds.
use crate::mixes::Slip;

mod raw {
    use crate::mixes::Slip;
    unsafe extern "C" {
        pub fn speed_groups(
            groups: usize,
            size: usize,
            calls: *const Slip,
            n: usize,
            answers: *mut Slip,
            room: usize,
        ) -> usize;
        pub fn speed_sorted(
            count: usize,
            calls: *const Slip,
            n: usize,
            answers: *mut Slip,
            room: usize,
        ) -> usize;
        pub fn speed_list(bytes: *const u8, n: usize, out: *mut u8, room: usize) -> usize;
    }
}

/// The calls over a new grouped queue.
pub fn groups(groups: usize, size: usize, calls: &[Slip], answers: &mut [Slip]) {
    // SAFETY: both slices are live and apart, and the export asks for nothing else.
    let made = unsafe {
        raw::speed_groups(
            groups,
            size,
            calls.as_ptr(),
            calls.len(),
            answers.as_mut_ptr(),
            answers.len(),
        )
    };
    assert_eq!(made, calls.len());
}

/// The calls over a new sorted queue.
pub fn sorted(count: usize, calls: &[Slip], answers: &mut [Slip]) {
    // SAFETY: as above.
    let made = unsafe {
        raw::speed_sorted(
            count,
            calls.as_ptr(),
            calls.len(),
            answers.as_mut_ptr(),
            answers.len(),
        )
    };
    assert_eq!(made, calls.len());
}

/// The text of a list at the front of a buffer, and its length.
pub fn list(bytes: &[u8], out: &mut [u8]) -> usize {
    // SAFETY: as above.
    unsafe { raw::speed_list(bytes.as_ptr(), bytes.len(), out.as_mut_ptr(), out.len()) }
}
