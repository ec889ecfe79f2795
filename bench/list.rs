//! Times the Rust source's list: `list FILE O L ADDRESS ELEMENTBYTES ORDER ROUNDS CHUNK PRESENT MAXIMUM`, a shape is numbers with commas, order 0 is
//! row-major. The header's signature says which kind of array it is. Prints the processor's seconds of the best round, the number of records and a sum that
//! is another for other records.
#![allow(dead_code, unused_imports, private_interfaces)]

mod bytes;
mod checksum;
mod chunk_grid;
mod convert;
mod error;
mod extensible_array;
mod fixed_array;
mod shims;
mod source;

use shims::{address, chunked_read, chunked_write, message_type};

use chunk_grid::{ChunkGrid, GridOrder};
use chunked_read::ChunkInfo;
use extensible_array::{ExtensibleArrayHeader, read_extensible_array_chunks};
use fixed_array::{FixedArrayHeader, read_fixed_array_chunks};
use std::hint::black_box;

#[repr(C)]
#[derive(Default)]
struct Timespec {
    seconds: i64,
    nanoseconds: i64,
}

unsafe extern "C" {
    fn clock_gettime(clock: i32, time: *mut Timespec) -> i32;
}

/// The clock that the C side takes (clock.h).
const CLOCK_PROCESS_CPUTIME_ID: i32 = 2;

fn now() -> f64 {
    let mut time = Timespec::default();
    unsafe { clock_gettime(CLOCK_PROCESS_CPUTIME_ID, &mut time) };
    time.seconds as f64 + 1e-9 * time.nanoseconds as f64
}

fn digest(list: &[ChunkInfo]) -> u64 {
    let mut sum = 0u64;
    for (i, c) in list.iter().enumerate() {
        let mut of_record = c.address.wrapping_mul(3).wrapping_add(5 * u64::from(c.chunk_size)).wrapping_add(7 * u64::from(c.filter_mask));
        for (d, offset) in c.offsets.iter().enumerate() {
            of_record = of_record.wrapping_add(offset.wrapping_mul(11 + d as u64));
        }
        sum = sum.wrapping_add(of_record.wrapping_mul(i as u64 + 1));
    }
    sum
}

/// The list of the array whose header begins at an address.
fn list(file: &[u8], address: usize, grid: &ChunkGrid, chunk: &[u32], element_bytes: u32, sizes: (u8, u8)) -> Vec<ChunkInfo> {
    let (offset_size, length_size) = sizes;
    if file[address..].starts_with(b"FAHD") {
        let header = FixedArrayHeader::parse(file, address, offset_size, length_size).unwrap();
        read_fixed_array_chunks(file, &header, grid, chunk, element_bytes, offset_size, length_size).unwrap()
    } else {
        let header = ExtensibleArrayHeader::parse(file, address, offset_size, length_size).unwrap();
        read_extensible_array_chunks(file, &header, grid, chunk, element_bytes, offset_size, length_size).unwrap()
    }
}

fn main() {
    let words: Vec<String> = std::env::args().collect();
    let number = |i: usize| words[i].parse::<u64>().unwrap();
    let shape = |i: usize| words[i].split(',').map(|n| n.parse().unwrap()).collect::<Vec<u64>>();
    let file = std::fs::read(&words[1]).unwrap();
    let sizes = (number(2) as u8, number(3) as u8);
    let order = if number(6) == 0 { GridOrder::RowMajor } else { GridOrder::UnlimitedFirst };
    let (chunk, present, maximum) = (shape(8), shape(9), shape(10));
    let chunk32: Vec<u32> = chunk.iter().map(|n| *n as u32).collect();

    let mut best = f64::MAX;
    let mut answer = (0, 0);
    for _ in 0..number(7) {
        let begin = now();
        let grid = ChunkGrid::new(&chunk, &present, Some(&maximum), order).unwrap();
        let list = list(&file, number(4) as usize, &grid, &chunk32, number(5) as u32, sizes);
        best = best.min(now() - begin);
        answer = (list.len(), digest(black_box(&list)));
    }
    println!("{best:.9} {} {}", answer.0, answer.1);
}
