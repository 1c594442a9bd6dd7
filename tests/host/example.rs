//! The row calls from Rust: the same title as example.c.
//!   tools/build pq_hlg
//!   rustc -O tests/host/example.rs -L target/staticlib -l static=pq_hlg -o target/host/example_rs
//!   target/host/example_rs

mod pq_hlg;

use pq_hlg::Source;

/// The bytes of a grey pixel of a code, then of a red one of the same code.
fn pixels(code: u16, black: u16) -> Vec<u8> {
    [code, code, code, code, black, black].iter().flat_map(|code| code.to_be_bytes()).collect()
}

fn print_answer(answer: Result<(), pq_hlg::Refusal>, dst: &[u8]) {
    println!("{}", answer.is_err() as u8);
    for pixel in dst.chunks(6) {
        let codes: Vec<String> =
            pixel.chunks(2).map(|bytes| u16::from_be_bytes([bytes[0], bytes[1]]).to_string()).collect();
        println!("{}", codes.join(" "));
    }
}

fn main() {
    let source = Source { peak: 1000, twelve_bits: false, full_range: false };
    let mut row = pixels(723, 64);
    let mut dst = vec![0; row.len()];
    for convert in [pq_hlg::convert_row, pq_hlg::convert_row_ycbcr] {
        let answer = convert(source, &row, &mut dst, 0, 2);
        print_answer(answer, &dst);
    }

    row[8..10].copy_from_slice(&1020u16.to_be_bytes());
    if let Err(refusal) = pq_hlg::convert_row(source, &row, &mut dst, 1, 2) {
        println!("refused {} at sample {}", refusal.number, refusal.place);
    }

    for (full_range, row) in [(false, pixels(2891, 256)), (true, pixels(3079, 0))] {
        let answer = pq_hlg::convert_row(Source { twelve_bits: true, full_range, ..source }, &row, &mut dst, 0, 2);
        print_answer(answer, &dst);
    }

    let mut values = [1000.0, 1000.0, 1000.0, 1000.0, 0.0, -1.0]; // what is below 0 counts as 0
    let answer = pq_hlg::convert_row_linear(1000, &values, &mut dst, 0, 2);
    print_answer(answer, &dst);
    values[4] = f32::NAN;
    if let Err(refusal) = pq_hlg::convert_row_linear(1000, &values, &mut dst, 1, 2) {
        println!("refused {} at value {}", refusal.number, refusal.place);
    }
}
