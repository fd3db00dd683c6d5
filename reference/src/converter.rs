//! The converter, without proofs: a stored problem of kind 1 or 3 without the rules whose left list is all blank.

use crate::record::{four, header, BLANK};
use crate::LARGEST;

/// Refusals 1 to 6 and 15, then 7 where the buffer is shorter than the record to be written; else its size.
pub fn convert(bytes: &[u8], buffer: &mut [u8]) -> Result<usize, u8> {
    let layout = header(bytes, &[1, 3])?;
    let leads = &bytes[layout.coefficients..];
    let outside = |lead: i32| lead != BLANK && !(-LARGEST..=LARGEST).contains(&lead);
    if leads.chunks_exact(4).any(|lead| outside(four(lead, 0))) {
        return Err(6);
    }
    let rows: Vec<&[u8]> = leads.chunks_exact(8 * layout.variables).collect();
    let (rules, questions) = rows.split_at(layout.rules);
    let blank = |row: &&[u8]| row[..4 * layout.variables].chunks_exact(4).all(|lead| four(lead, 0) == BLANK);
    let kept: Vec<&[u8]> = rules.iter().copied().filter(|row| !blank(row)).collect();
    let mut record = bytes[..layout.coefficients].to_vec();
    record[8] = kept.len() as u8;
    for row in kept.iter().chain(questions) {
        record.extend_from_slice(row);
    }
    let length = record.len() as u32 - 4;
    record[..4].copy_from_slice(&length.to_le_bytes());
    if buffer.len() < record.len() {
        return Err(7);
    }
    buffer[..record.len()].copy_from_slice(&record);
    Ok(record.len())
}
