//! There and back from Rust, through both libraries: the same row as return_example.c.
//!   tools/build pq_hlg hlg_pq
//!   rustc -O tests/host/return_example.rs -L target/staticlib -l static=hlg_pq -l static=pq_hlg -o target/host/return_example_rs
//!   target/host/return_example_rs

mod hlg_pq;
#[allow(dead_code)] // the Y'CbCr call and that on linear values
mod pq_hlg;

use pq_hlg::Source;

/// The codes of a pixel of a row.
fn pixel(row: &[u8], place: usize) -> String {
    let codes: Vec<String> =
        row[6 * place..][..6].chunks(2).map(|bytes| u16::from_be_bytes([bytes[0], bytes[1]]).to_string()).collect();
    codes.join(" ")
}

fn main() {
    let insert: [u16; 9] = [940, 940, 940, 600, 600, 600, 976, 64, 64];
    let mut hlg: Vec<u8> = insert.iter().flat_map(|code| code.to_be_bytes()).collect();
    let (mut pq, mut back) = (vec![0; hlg.len()], vec![0; hlg.len()]);
    hlg_pq::convert_row(&hlg, &mut pq, 0, 3).expect("the row is sound");
    let source = Source { peak: 1000, twelve_bits: false, full_range: false };
    pq_hlg::convert_row(source, &pq, &mut back, 0, 3).expect("so is what it became");
    for place in 0..3 {
        println!("{} -> {} -> {}", pixel(&hlg, place), pixel(&pq, place), pixel(&back, place));
    }

    hlg[10] = 4; // the last sample of the second pixel becomes 1,112
    if let Err(refusal) = hlg_pq::convert_row(&hlg, &mut pq, 1, 3) {
        println!("refused {} at sample {}", refusal.number, refusal.place);
    }
}
