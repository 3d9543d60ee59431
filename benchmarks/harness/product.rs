//! The product's exports, as the static library of the crate `exports` has them. A slice goes as a
//! pointer and a length.

use crate::sides::Session;

unsafe extern "C" {
    fn exports_record(
        session: &Session,
        text: *const u8,
        text_len: usize,
        cells: *mut u16,
        cells_len: usize,
        store: *mut u8,
        store_len: usize,
        turns: *const u8,
        turns_len: usize,
    ) -> u64;

    fn exports_open(
        session: &Session,
        cells: *const u16,
        cells_len: usize,
        store: *const u8,
        store_len: usize,
    ) -> u64;

    fn exports_replay(
        session: &Session,
        text: *const u8,
        text_len: usize,
        cells: *mut u16,
        cells_len: usize,
        store: *const u8,
        store_len: usize,
        steps: *const u8,
        steps_len: usize,
        runs: bool,
    ) -> u64;
}

pub fn record(
    session: &Session,
    text: &[u8],
    cells: &mut [u16],
    store: &mut [u8],
    turns: &[u8],
) -> u64 {
    // SAFETY: the pointers and lengths are those of slices, and nothing of them is kept. The export
    // requires nothing more.
    unsafe {
        exports_record(
            session,
            text.as_ptr(),
            text.len(),
            cells.as_mut_ptr(),
            cells.len(),
            store.as_mut_ptr(),
            store.len(),
            turns.as_ptr(),
            turns.len(),
        )
    }
}

pub fn open(session: &Session, cells: &[u16], store: &[u8]) -> u64 {
    // SAFETY: as above.
    unsafe {
        exports_open(
            session,
            cells.as_ptr(),
            cells.len(),
            store.as_ptr(),
            store.len(),
        )
    }
}

pub fn replay(
    session: &Session,
    text: &[u8],
    cells: &mut [u16],
    store: &[u8],
    steps: &[u8],
    runs: bool,
) -> u64 {
    // SAFETY: as above.
    unsafe {
        exports_replay(
            session,
            text.as_ptr(),
            text.len(),
            cells.as_mut_ptr(),
            cells.len(),
            store.as_ptr(),
            store.len(),
            steps.as_ptr(),
            steps.len(),
            runs,
        )
    }
}
