//! The writer: a heading's numbers and the records as bytes, to the file.

use crate::calls::{Heading, Refusal};
use crate::file::{check, records_held, setting_of, wrong_heading, BLOCK, RECORDS_IN_BLOCK};
use crate::record::{read_records, records_in, RECORD};

/// The file of this heading and these records, refused as the reader would refuse it.
pub fn write(heading: &Heading, records: &[u8]) -> Result<Vec<u8>, Refusal> {
    if wrong_heading(heading) {
        return Err(Refusal::grammar(4, 0));
    }
    if records.len() != RECORD * heading.rules as usize {
        return Err(Refusal::grammar(5, 0));
    }
    read_records(&setting_of(heading), &records_in(records).collect::<Vec<_>>())?;
    Ok(file_of(heading, records))
}

/// The file of this heading and these records, which are as many as it says, right or wrong.
pub fn file_of(heading: &Heading, records: &[u8]) -> Vec<u8> {
    let mut file = sealed(heading_block(heading));
    for (i, held) in records.chunks(RECORD * RECORDS_IN_BLOCK).enumerate() {
        let k = i + 1;
        let mut block = vec![0; BLOCK];
        block[0] = k as u8;
        block[2] = 2;
        block[3] = records_held(heading.rules as usize, k) as u8;
        block[4..4 + held.len()].copy_from_slice(held);
        file.extend(sealed(block));
    }
    file
}

fn heading_block(heading: &Heading) -> Vec<u8> {
    let mut block = vec![0; BLOCK];
    block[2] = 1;
    block[3] = heading.categories;
    block[4] = heading.start;
    block[5..7].copy_from_slice(&heading.words.to_le_bytes());
    block[7..9].copy_from_slice(&heading.rules.to_le_bytes());
    block[16..80].copy_from_slice(&heading.dimensions);
    block
}

/// The block with its check.
fn sealed(mut block: Vec<u8>) -> Vec<u8> {
    let sum = check(&block);
    block[508..].copy_from_slice(&sum.to_le_bytes());
    block
}
