// The loop of `run` without its cones in plain Rust, which `bench/routing` times: it reads a trace in
// memory, puts each key into a list of its cone, and empties each list that holds a packet.
//
// Words: CONE_BITS KEYS SEED [VERSION]. With version 2 the trace has weights, 1 to 255 in turn, and by
// default it has none. It prints a sum over all packets, in their order, and on standard error the
// nanoseconds that the loop took.
mod mixer;

use mixer::mix;
use std::io::{BufReader, Read};
use std::time::Instant;

const PACKET: usize = 1024;

// A trace of so many keys, each another one.
fn trace(version: u8, keys: u64, seed: u64) -> Vec<u8> {
    let mut bytes = vec![0x4c, 0x45, 0x52, 0x54, version, 0, 0, 0];
    for number in 0..keys {
        bytes.extend_from_slice(&mix(seed.wrapping_add(number)).to_le_bytes());
        if version > 1 {
            bytes.push((number % 255) as u8 + 1);
        }
    }
    bytes
}

fn key_of(item: &[u8]) -> u64 {
    u64::from_le_bytes(item[..8].try_into().unwrap())
}

// A weight that isn't there is 1, which adds nothing to a sum.
fn weight_of(item: &[u8]) -> u64 {
    item.get(8).map_or(1, |&weight| u64::from(weight))
}

// Items of so many bytes, behind a trace's header.
fn route_items<const LEN: usize>(cone_bits: u32, mut reader: impl Read) -> u64 {
    let mut rings: Vec<Vec<[u8; LEN]>> = (0..1 << cone_bits).map(|_| Vec::with_capacity(PACKET)).collect();
    let mut sum = 0u64;
    let mut item = [0; LEN];
    while reader.read_exact(&mut item).is_ok() {
        let ring = &mut rings[(mix(key_of(&item)) >> 32 >> (32 - cone_bits)) as usize];
        ring.push(item);
        if ring.len() == PACKET {
            for item in ring.iter() {
                sum = sum.rotate_left(1) ^ key_of(item) ^ (weight_of(item) - 1);
            }
            ring.clear();
        }
    }
    sum
}

fn route_all(cone_bits: u32, mut reader: impl Read) -> u64 {
    let mut header = [0; 8];
    match reader.read_exact(&mut header).map(|()| &header) {
        Ok(b"LERT\x01\0\0\0") => route_items::<8>(cone_bits, reader),
        Ok(b"LERT\x02\0\0\0") => route_items::<9>(cone_bits, reader),
        _ => 0,
    }
}

fn main() {
    let words: Vec<u64> = std::env::args().skip(1).map(|word| word.parse().unwrap()).collect();
    let version = words.get(3).map_or(1, |&version| version as u8);
    let bytes = trace(version, words[1], words[2]);
    let start = Instant::now();
    let sum = route_all(words[0] as u32, BufReader::with_capacity(4096, &bytes[..]));
    let time = start.elapsed();
    println!("{sum}");
    eprintln!("{}", time.as_nanos());
}
