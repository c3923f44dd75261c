//! A sheet and a statement as text.

use crate::{raw, refusal_of, Counts, Refusal};

/// What can be wrong with a line of a text: a list of its own, not to be mixed up with the refusals of a sheet.
#[derive(Clone, Copy, Debug, PartialEq, Eq, Hash)]
pub enum Fault {
    Word = 1,
    Few = 2,
    Many = 3,
    NotANumber = 4,
    TooLarge = 5,
    Rows = 6,
    Twice = 7,
    Missing = 8,
}

impl Fault {
    /// The faults in the order of their numbers, from 1 on.
    pub const ALL: [Fault; 8] =
        [Fault::Word, Fault::Few, Fault::Many, Fault::NotANumber, Fault::TooLarge, Fault::Rows, Fault::Twice, Fault::Missing];

    /// The fault in a few words.
    pub fn meaning(&self) -> &'static str {
        match self {
            Fault::Word => "its first field is no word of the list",
            Fault::Few => "too few numbers",
            Fault::Many => "too many numbers",
            Fault::NotANumber => "a field is not a number",
            Fault::TooLarge => "a number is too large",
            Fault::Rows => "a row more than there is room for, or that the sheet doesn't have",
            Fault::Twice => "a row that stood before",
            Fault::Missing => "a row is missing",
        }
    }
}

/// The first line of a text that is wrong, from 1, and how. A row that is missing is told with the number of lines; line 0 is of no line.
#[derive(Clone, Copy, Debug, PartialEq, Eq, Hash)]
pub struct WrongLine {
    pub line: u32,
    pub fault: Fault,
}

impl std::fmt::Display for WrongLine {
    fn fmt(&self, f: &mut std::fmt::Formatter<'_>) -> std::fmt::Result {
        write!(f, "line {}: {}", self.line, self.fault.meaning())
    }
}

impl std::error::Error for WrongLine {}

/// Why a text gives no sheet.
#[derive(Clone, Copy, Debug, PartialEq, Eq, Hash)]
pub enum Unmade {
    /// A line can't be read.
    Wrong(WrongLine),
    /// All lines can, and writing refuses their numbers; the line is that of the row refused, 0 if it is of none.
    Refused { line: u32, refusal: Refusal },
}

impl std::fmt::Display for Unmade {
    fn fmt(&self, f: &mut std::fmt::Formatter<'_>) -> std::fmt::Result {
        match self {
            Unmade::Wrong(wrong) => wrong.fmt(f),
            Unmade::Refused { line, refusal } => write!(f, "line {line}: {refusal}"),
        }
    }
}

impl std::error::Error for Unmade {}

// The numbers of faults begin behind this one.
const FAULTS: u32 = 30;

fn wrong_of(number: u32, line: u32) -> Option<WrongLine> {
    let fault = Fault::ALL.into_iter().find(|&fault| number == FAULTS + fault as u32)?;
    Some(WrongLine { line, fault })
}

/// Writes the text of a sheet and hands back its length. Refusals 1 to 6, then 11.
pub fn sheet_text(sheet: &[u8], out: &mut [u8]) -> Result<usize, Refusal> {
    let mut answer = [0u32; 3];
    // Each pointer is a slice's own with its length, and the exclusive ones do not overlap, here and below.
    unsafe {
        raw::naomhral_sheet_text(sheet.as_ptr(), sheet.len(), out.as_mut_ptr(), out.len(), answer.as_mut_ptr(), answer.len());
    }
    let [number, place, length] = answer;
    refusal_of(number, place)?;
    Ok(length as usize)
}

/// Makes a sheet from its text and hands back its length. Wrong lines first, then refusals 3 to 6 of its rows, then 11.
pub fn make_sheet(text: &[u8], out: &mut [u8]) -> Result<usize, Unmade> {
    let mut answer = [0u32; 4];
    unsafe {
        raw::naomhral_make_sheet(text.as_ptr(), text.len(), out.as_mut_ptr(), out.len(), answer.as_mut_ptr(), answer.len());
    }
    let [number, place, length, line] = answer;
    if let Some(wrong) = wrong_of(number, line) {
        return Err(Unmade::Wrong(wrong));
    }
    refusal_of(number, place).map_err(|refusal| Unmade::Refused { line, refusal })?;
    Ok(length as usize)
}

/// Settles a sheet, writes the hour as a statement's text and hands back its length. Refusals 1 to 10 and 13, then 11.
pub fn statement_text(sheet: &[u8], out: &mut [u8]) -> Result<usize, Refusal> {
    let mut answer = [0u32; 3];
    unsafe {
        raw::naomhral_statement_text(sheet.as_ptr(), sheet.len(), out.as_mut_ptr(), out.len(), answer.as_mut_ptr(), answer.len());
    }
    let [number, place, length] = answer;
    refusal_of(number, place)?;
    Ok(length as usize)
}

/// Reads a statement's text into four lists, in the shape in which [`crate::check`] takes them, and hands back its price. The counts are
/// those of the sheet, as [`crate::read`] hands them back; counts over a sheet's limits and lists too short for them are line 0 and
/// [`Fault::Rows`].
pub fn read_statement(
    text: &[u8],
    counts: &Counts,
    figures: &mut [u32],
    money: &mut [i64],
    schedule: &mut [u32],
    amounts: &mut [u32],
) -> Result<u32, WrongLine> {
    let mut answer = [0u32; 3];
    let number = unsafe {
        raw::naomhral_read_statement(
            text.as_ptr(),
            text.len(),
            counts.agents,
            counts.plants,
            counts.contracts,
            figures.as_mut_ptr(),
            figures.len(),
            money.as_mut_ptr(),
            money.len(),
            schedule.as_mut_ptr(),
            schedule.len(),
            amounts.as_mut_ptr(),
            amounts.len(),
            answer.as_mut_ptr(),
            answer.len(),
        )
    };
    let [_, line, price] = answer;
    wrong_of(number, line).map_or(Ok(price), Err)
}
