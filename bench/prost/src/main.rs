//! Encodes and decodes a keyset of 16 keys with prost and with ours, in one run.
use prost::Message;
use std::hint::black_box;
use std::time::Instant;

#[derive(Clone, PartialEq, Message)]
struct KeyData {
    #[prost(string, tag = "1")]
    type_url: String,
    #[prost(bytes = "vec", tag = "2")]
    value: Vec<u8>,
    #[prost(int32, tag = "3")]
    key_material_type: i32,
}

#[derive(Clone, PartialEq, Message)]
struct Key {
    #[prost(message, optional, tag = "1")]
    key_data: Option<KeyData>,
    #[prost(int32, tag = "2")]
    status: i32,
    #[prost(uint32, tag = "3")]
    key_id: u32,
    #[prost(int32, tag = "4")]
    output_prefix_type: i32,
}

#[derive(Clone, PartialEq, Message)]
struct Keyset {
    #[prost(uint32, tag = "1")]
    primary_key_id: u32,
    #[prost(message, repeated, tag = "2")]
    key: Vec<Key>,
}

extern "C" {
    // Decodes the bytes so many times; the sum of the numbers of keys.
    fn zulgoad_decode(bytes: *const u8, len: usize, times: u64) -> u64;
    // Decodes the bytes once and encodes the record so many times into `out`; the sum of the lengths.
    fn zulgoad_encode(bytes: *const u8, len: usize, out: *mut u8, out_len: usize, times: u64) -> u64;
}

fn keyset(value_len: usize) -> Keyset {
    let key = (0..16u32)
        .map(|i| Key {
            key_data: Some(KeyData {
                type_url: "junction/cmac128".into(),
                value: (0..value_len).map(|b| (b as u32 * 7 + i) as u8).collect(),
                key_material_type: 1,
            }),
            status: 1,
            key_id: 0x0102_0304u32.wrapping_mul(i + 1),
            output_prefix_type: 1 + (i % 4) as i32,
        })
        .collect();
    Keyset { primary_key_id: 0x0102_0304, key }
}

fn median(mut v: Vec<f64>) -> f64 {
    v.sort_by(|a, b| a.total_cmp(b));
    v[v.len() / 2]
}

const TIMES: u64 = 2000;

fn timed(f: &mut dyn FnMut()) -> f64 {
    let start = Instant::now();
    f();
    start.elapsed().as_nanos() as f64 / TIMES as f64
}

fn row(what: &str, bytes: usize, ours: &mut dyn FnMut(), theirs: &mut dyn FnMut()) {
    let (mut a, mut b) = (Vec::new(), Vec::new());
    for turn in 0..41 {
        if turn % 2 == 0 {
            a.push(timed(ours));
            b.push(timed(theirs));
        } else {
            b.push(timed(theirs));
            a.push(timed(ours));
        }
    }
    let (a, b) = (median(a), median(b));
    println!("| {what} | {bytes} | {a:.0} | {b:.0} | {:.2} |", a / b);
}

fn main() {
    println!("| what | bytes | ours, ns | prost, ns | ours / prost |");
    println!("|---|--:|--:|--:|--:|");
    for value_len in [16, 32, 128] {
        let keyset = keyset(value_len);
        let bytes = keyset.encode_to_vec();
        let mut out = vec![0u8; 4096];
        let n = unsafe { zulgoad_encode(bytes.as_ptr(), bytes.len(), out.as_mut_ptr(), out.len(), 1) } as usize;
        assert_eq!(&out[..n], &bytes[..], "both sides write the same bytes");
        assert_eq!(unsafe { zulgoad_decode(bytes.as_ptr(), bytes.len(), 1) }, 16);
        let mut ours = || {
            black_box(unsafe { zulgoad_encode(bytes.as_ptr(), bytes.len(), out.as_mut_ptr(), out.len(), TIMES) });
        };
        let mut theirs = || {
            let mut buffer = Vec::with_capacity(4096);
            for _ in 0..TIMES {
                buffer.clear();
                black_box(&keyset).encode(&mut buffer).unwrap();
                black_box(&buffer);
            }
        };
        row(&format!("encode, 16 keys of {value_len} bytes"), bytes.len(), &mut ours, &mut theirs);
        let mut ours = || {
            black_box(unsafe { zulgoad_decode(bytes.as_ptr(), bytes.len(), TIMES) });
        };
        let mut theirs = || {
            for _ in 0..TIMES {
                black_box(Keyset::decode(black_box(&bytes[..])).unwrap());
            }
        };
        row(&format!("decode, 16 keys of {value_len} bytes"), bytes.len(), &mut ours, &mut theirs);
    }
}
