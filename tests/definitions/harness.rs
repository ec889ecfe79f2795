//! The Rust behind lines of text: header, grid and list, with the sum of the bytes in the place of the checksum.
//!
//! A line is `HEX O L ADDRESS ELEMENTBYTES ORDER CHUNK PRESENT MAXIMUM LISTO`: a shape is numbers with commas or `-`, no maximum is
//! `none`, and LISTO is the offset size that the list is called with. An answer is `R NUMBER FIGURE FIGURE`, `A` and records
//! `address:size:mask:offset,..` with semicolons, or `outside` and a reason where the Rust has no answer with a number.
#![allow(dead_code, unused_imports, private_interfaces)]

mod bytes;
mod chunk_grid;
mod convert;
mod error;
mod extensible_array;
mod shims;
mod source;

use shims::{address, chunked_read, chunked_write, message_type};

/// In the place of checksum.rs: the same test, over the sum of the bytes.
mod checksum {
    use crate::error::FormatError;

    pub fn jenkins_lookup3(data: &[u8]) -> u32 {
        data.iter().fold(0u32, |sum, b| sum.wrapping_add(u32::from(*b)))
    }

    pub fn verify_trailing(block: &[u8]) -> Result<(), FormatError> {
        let Some((body, trailer)) = block.split_last_chunk::<4>() else {
            return Err(FormatError::UnexpectedEof { expected: 4, available: block.len() });
        };
        let (expected, computed) = (u32::from_le_bytes(*trailer), jenkins_lookup3(body));
        if expected == computed {
            Ok(())
        } else {
            Err(FormatError::ChecksumMismatch { expected, computed })
        }
    }
}

use chunk_grid::{ChunkGrid, GridOrder};
use error::FormatError;
use extensible_array::{ExtensibleArrayHeader, read_extensible_array_chunks};

/// The beginning of each text that has a number.
const TEXTS: [(&str, u32); 13] = [
    ("chunk rank ", 4),
    ("maximum-shape rank ", 5),
    ("chunk dimensions must all be non-zero", 6),
    ("a chunked dataset may have only one unlimited dimension", 7),
    ("maximum shape describes more chunks than can be numbered", 8),
    ("invalid Extensible Array header signature", 21),
    ("invalid Extensible Array index block signature", 23),
    ("invalid Extensible Array data block signature", 24),
    ("invalid Extensible Array super block signature", 25),
    ("Extensible Array element size too small", 28),
    ("invalid variable-length size", 29),
    ("this chunked dataset has a dimension of no chunks at all", 32),
    ("chunk index slot resolves past the addressable dataspace", 33),
];

fn refusal(e: FormatError) -> String {
    match e {
        FormatError::InvalidOffsetSize(size) => format!("R 1 {size} 0"),
        FormatError::InvalidLengthSize(size) => format!("R 2 {size} 0"),
        FormatError::UnexpectedEof { expected, available } => format!("R 20 {expected} {available}"),
        FormatError::ChecksumMismatch { expected, computed } => format!("R 26 {expected} {computed}"),
        FormatError::ValueTooLargeForPlatform { value, .. } => format!("R 30 {value} 0"),
        FormatError::ChunkedReadError(text) => {
            if let Some(version) = text.strip_prefix("unsupported Extensible Array header version: ") {
                return format!("R 22 {version} 0");
            }
            match TEXTS.iter().find(|(start, _)| text.starts_with(start)) {
                Some((_, number)) => format!("R {number} 0 0"),
                None => format!("outside {text}"),
            }
        }
        e => format!("outside {e:?}"),
    }
}

fn numbers(shape: &str) -> Vec<u64> {
    if shape == "-" { vec![] } else { shape.split(',').map(|n| n.parse().unwrap()).collect() }
}

fn answer(line: &str) -> Result<String, FormatError> {
    let words: Vec<&str> = line.split(' ').collect();
    let size = |i: usize| words[i].parse::<u8>().unwrap();
    let file: Vec<u8> = (0..words[0].len() / 2).map(|i| u8::from_str_radix(&words[0][2 * i..2 * i + 2], 16).unwrap()).collect();
    let order = if words[5] == "U" { GridOrder::UnlimitedFirst } else { GridOrder::RowMajor };
    let (chunk, present) = (numbers(words[6]), numbers(words[7]));
    let maximum = if words[8] == "none" { None } else { Some(numbers(words[8])) };

    let header = ExtensibleArrayHeader::parse(&file, words[3].parse().unwrap(), size(1), size(2))?;
    let grid = ChunkGrid::new(&chunk, &present, maximum.as_deref(), order)?;
    let chunk32: Vec<u32> = chunk.iter().map(|n| *n as u32).collect();
    let list = read_extensible_array_chunks(&file, &header, &grid, &chunk32, words[4].parse().unwrap(), size(9), size(2))?;

    let record = |c: &chunked_read::ChunkInfo| {
        let offsets: Vec<String> = c.offsets.iter().map(u64::to_string).collect();
        format!("{}:{}:{}:{}", c.address, c.chunk_size, c.filter_mask, offsets.join(","))
    };
    Ok(format!("A {}", list.iter().map(record).collect::<Vec<_>>().join(";")))
}

fn main() {
    std::panic::set_hook(Box::new(|_| ()));
    for line in std::io::stdin().lines() {
        let line = line.unwrap();
        let said = std::panic::catch_unwind(|| answer(&line).unwrap_or_else(refusal));
        println!("{}", said.unwrap_or_else(|_| "outside panic".to_string()));
    }
}
