// SPDX-License-Identifier: MIT
//! The row calls for Rust: safe functions over the static library's three symbols, version 2 of its interface (PQ_HLG_ABI in include/pq_hlg.h).

/// What the symbols of PQ rows take: peak, format, row and its length, destination and its length, first, end.
type RowCall = unsafe extern "C" fn(u64, u64, *const u8, usize, *mut u8, usize, usize, usize) -> u64;

extern "C" {
    fn pq_hlg_convert_row(
        peak: u64,
        format: u64,
        row: *const u8,
        row_len: usize,
        dst: *mut u8,
        dst_len: usize,
        first: usize,
        end: usize,
    ) -> u64;

    fn pq_hlg_convert_row_ycbcr(
        peak: u64,
        format: u64,
        row: *const u8,
        row_len: usize,
        dst: *mut u8,
        dst_len: usize,
        first: usize,
        end: usize,
    ) -> u64;

    fn pq_hlg_convert_row_linear(
        peak: u64,
        row: *const f32,
        row_len: usize,
        dst: *mut u8,
        dst_len: usize,
        first: usize,
        end: usize,
    ) -> u64;
}

/// What is declared of a source: its peak in whole cd/m2, and the depth and the range of its samples.
#[derive(Clone, Copy, Debug, PartialEq, Eq)]
pub struct Source {
    pub peak: u64,
    pub twelve_bits: bool,
    pub full_range: bool,
}

impl Source {
    /// Depth and range in the one number that the symbols take, as its bits 3 and 4.
    fn format(self) -> u64 {
        (self.twelve_bits as u64) << 3 | (self.full_range as u64) << 4
    }
}

/// A refusal's number, 5 to 9, 15 or 16, and its place: for 9 and 16 the first refused sample or value counted from the row's start, else 0.
#[derive(Debug, PartialEq, Eq)]
pub struct Refusal {
    pub number: u64,
    pub place: u64,
}

/// Converts the pixels `first..end` of `row` into the same places of `dst`, as RGB. A refused call leaves `dst` as it was.
pub fn convert_row(source: Source, row: &[u8], dst: &mut [u8], first: usize, end: usize) -> Result<(), Refusal> {
    make_call(pq_hlg_convert_row, source, row, dst, first, end)
}

/// The same as Y'CbCr: luma, Cb and Cr in the places of red, green and blue.
pub fn convert_row_ycbcr(source: Source, row: &[u8], dst: &mut [u8], first: usize, end: usize) -> Result<(), Refusal> {
    make_call(pq_hlg_convert_row_ycbcr, source, row, dst, first, end)
}

/// Converts linear values, display light in cd/m2, three to a pixel; `dst` has two bytes for each, and gets RGB.
pub fn convert_row_linear(peak: u64, row: &[f32], dst: &mut [u8], first: usize, end: usize) -> Result<(), Refusal> {
    // As below.
    let number = unsafe {
        pq_hlg_convert_row_linear(peak, row.as_ptr(), row.len(), dst.as_mut_ptr(), dst.len(), first, end)
    };
    answer(number)
}

fn make_call(
    convert: RowCall,
    source: Source,
    row: &[u8],
    dst: &mut [u8],
    first: usize,
    end: usize,
) -> Result<(), Refusal> {
    // Two slices never overlap here, since dst is borrowed mutably, and each pointer comes with its own length.
    let number = unsafe {
        convert(source.peak, source.format(), row.as_ptr(), row.len(), dst.as_mut_ptr(), dst.len(), first, end)
    };
    answer(number)
}

/// What a symbol's number says.
fn answer(number: u64) -> Result<(), Refusal> {
    match number {
        0 => Ok(()),
        n => Err(Refusal { number: n % 256, place: n / 256 }),
    }
}
