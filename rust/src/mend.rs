//! Mending a sheet.

use crate::{raw, refusal_of, Refusal, REPORT_MOST, SHEET_MOST};

/// A byte that mending changed.
#[derive(Clone, Copy, Debug, PartialEq, Eq)]
pub struct Change {
    pub place: usize,
    pub old: u8,
    pub new: u8,
}

/// Mends a sheet: hands back a copy with its distances worked out from its counts and the unused bytes of agent and boundary rows set
/// to 0, and every byte changed, in rising place. Refusals 1, and 2 only if a count is over its limit or the counts don't fit the
/// length. What is mended may still be refused with 3 to 6.
pub fn mend(sheet: &[u8]) -> Result<(Vec<u8>, Vec<Change>), Refusal> {
    let (mut copy, mut report, mut answer) = ([0u8; SHEET_MOST], [0u32; REPORT_MOST], [0u32; 3]);
    // Each pointer is an array's or a slice's own with its length, and the exclusive ones do not overlap.
    unsafe {
        raw::naomhral_mend(
            sheet.as_ptr(),
            sheet.len(),
            copy.as_mut_ptr(),
            copy.len(),
            report.as_mut_ptr(),
            report.len(),
            answer.as_mut_ptr(),
            answer.len(),
        );
    }
    let [number, place, changes] = answer;
    refusal_of(number, place)?;
    let cells = report[..3 * changes as usize].chunks_exact(3);
    let changes = cells.map(|c| Change { place: c[0] as usize, old: c[1] as u8, new: c[2] as u8 }).collect();
    Ok((copy[..sheet.len()].to_vec(), changes))
}
