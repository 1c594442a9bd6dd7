// SPDX-License-Identifier: MIT
//! The return path for Rust: a safe function over the static library's one symbol, version 1 of its interface (HLG_PQ_ABI in include/hlg_pq.h).

extern "C" {
    fn hlg_pq_convert_row(
        row: *const u8,
        row_len: usize,
        dst: *mut u8,
        dst_len: usize,
        first: usize,
        end: usize,
    ) -> u64;
}

/// A refusal's number, 6 to 9, and its place: for 9 the first refused sample counted from the row's start, else 0.
#[derive(Debug, PartialEq, Eq)]
pub struct Refusal {
    pub number: u64,
    pub place: u64,
}

/// Converts the HLG pixels `first..end` of `row` to PQ, into the same places of `dst`. A refused call leaves `dst` as it was.
pub fn convert_row(row: &[u8], dst: &mut [u8], first: usize, end: usize) -> Result<(), Refusal> {
    // Two slices never overlap here, since dst is borrowed mutably, and each pointer comes with its own length.
    let number = unsafe { hlg_pq_convert_row(row.as_ptr(), row.len(), dst.as_mut_ptr(), dst.len(), first, end) };
    match number {
        0 => Ok(()),
        n => Err(Refusal { number: n % 256, place: n / 256 }),
    }
}
