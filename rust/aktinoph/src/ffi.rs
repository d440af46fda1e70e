//! The exported functions of the static library, as `include/aktinoph.h`
//! declares them. This is the only module with unsafe code.

extern "C" {
    fn aktinoph_fit(
        object: *const u8,
        object_len: usize,
        order: *const u8,
        order_len: usize,
        image: *mut u8,
        image_len: usize,
        ledger: *mut u8,
        ledger_len: usize,
    ) -> u64;

    fn aktinoph_take_back(
        image: *mut u8,
        image_len: usize,
        ledger: *mut u8,
        ledger_len: usize,
    ) -> u64;

    fn aktinoph_replay(
        calls: *const u8,
        calls_len: usize,
        image: *mut u8,
        image_len: usize,
        ledger: *mut u8,
        ledger_len: usize,
        answers: *mut u64,
        answers_len: usize,
    ) -> u64;
}

pub(crate) fn fit(object: &[u8], order: &[u8], image: &mut [u8], ledger: &mut [u8]) -> u64 {
    // SAFETY: a slice's pointer is not null and has its length's bytes. The
    // mutable slices overlap nothing, and the function only reads object and
    // order. It keeps no pointer after its return.
    unsafe {
        aktinoph_fit(
            object.as_ptr(),
            object.len(),
            order.as_ptr(),
            order.len(),
            image.as_mut_ptr(),
            image.len(),
            ledger.as_mut_ptr(),
            ledger.len(),
        )
    }
}

pub(crate) fn take_back(image: &mut [u8], ledger: &mut [u8]) -> u64 {
    // SAFETY: as in `fit`: two mutable slices, which do not overlap.
    unsafe {
        aktinoph_take_back(
            image.as_mut_ptr(),
            image.len(),
            ledger.as_mut_ptr(),
            ledger.len(),
        )
    }
}

pub(crate) fn replay(
    calls: &[u8],
    image: &mut [u8],
    ledger: &mut [u8],
    answers: &mut [u64],
) -> u64 {
    // SAFETY: as in `fit`: three mutable slices, which overlap nothing, and
    // one that is only read. The length of `answers` counts numbers.
    unsafe {
        aktinoph_replay(
            calls.as_ptr(),
            calls.len(),
            image.as_mut_ptr(),
            image.len(),
            ledger.as_mut_ptr(),
            ledger.len(),
            answers.as_mut_ptr(),
            answers.len(),
        )
    }
}
