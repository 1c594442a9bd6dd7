// SPDX-License-Identifier: MIT
//! Captions for Rust: a safe function over the static library's one symbol, version 1 of its interface (SRGB_HLG_ABI in include/srgb_hlg.h).

extern "C" {
    fn srgb_hlg_convert_row(
        row: *const u8,
        row_len: usize,
        dst: *mut u8,
        dst_len: usize,
        first: usize,
        end: usize,
    ) -> u64;
}

/// A refusal's number, 18, 7 or 8; it has no place.
#[derive(Debug, PartialEq, Eq)]
pub struct Refusal {
    pub number: u64,
}

/// Converts the sRGB pixels `first..end` of `row`, three bytes each, to HLG, into the same places of `dst`, six bytes each. A refused call
/// leaves `dst` as it was.
pub fn convert_row(row: &[u8], dst: &mut [u8], first: usize, end: usize) -> Result<(), Refusal> {
    // Two slices never overlap here, since dst is borrowed mutably, and each pointer comes with its own length.
    let number = unsafe { srgb_hlg_convert_row(row.as_ptr(), row.len(), dst.as_mut_ptr(), dst.len(), first, end) };
    match number {
        0 => Ok(()),
        number => Err(Refusal { number }),
    }
}
