//! Captions from Rust: the same row as srgb_example.c.
//!   tools/build srgb_hlg
//!   rustc -O tests/host/srgb_example.rs -L target/staticlib -l static=srgb_hlg -o target/host/srgb_example_rs
//!   target/host/srgb_example_rs

mod srgb_hlg;

fn main() {
    let row: [[u8; 3]; 8] = [
        [255, 255, 255],
        [0, 0, 0],
        [255, 0, 0],
        [0, 255, 0],
        [0, 0, 255],
        [255, 255, 0],
        [0, 255, 255],
        [255, 0, 255],
    ];
    let bytes = row.concat();
    let mut dst = vec![0; 2 * bytes.len()];
    srgb_hlg::convert_row(&bytes, &mut dst, 0, row.len()).expect("the row is sound");
    for ([red, green, blue], codes) in row.iter().zip(dst.chunks(6)) {
        let codes: Vec<String> =
            codes.chunks(2).map(|bytes| u16::from_be_bytes([bytes[0], bytes[1]]).to_string()).collect();
        println!("{red} {green} {blue} -> {}", codes.join(" "));
    }

    if let Err(refusal) = srgb_hlg::convert_row(&bytes, &mut dst[..bytes.len()], 0, row.len()) {
        println!("refused {}", refusal.number);
    }
}
