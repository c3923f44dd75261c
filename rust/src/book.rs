//! A day's book, and what is entered of a settled hour.

use crate::{raw, refusal_of, Refusal, Summary};

const CELLS: usize = 124;
const TOTALS: usize = 120;

/// What a day's book holds of an hour: kWh, kWh, kWh and centavos per kWh.
#[derive(Clone, Copy, Debug, PartialEq, Eq)]
pub struct Entry {
    pub demand: u32,
    pub losses: u32,
    pub bought: u32,
    pub price: u32,
}

/// A day's book of 24 hours, with the totals of those it holds. It is made empty, and only the library changes it, so the totals are
/// always a sum over the hours held.
#[derive(Clone, Debug, PartialEq, Eq)]
pub struct Book {
    cells: [u64; CELLS],
}

impl Default for Book {
    fn default() -> Book {
        Book::new()
    }
}

impl Book {
    /// An empty book.
    pub fn new() -> Book {
        let mut cells = [0; CELLS];
        // The pointer is the array's own with its length, here and below.
        let number = unsafe { raw::naomhral_book_empty(cells.as_mut_ptr(), cells.len()) };
        assert_eq!(number, 0, "the cells are a book's");
        Book { cells }
    }

    /// Enters an hour, replacing one held. Refusals 12 (an hour outside 0 to 23) and 16, place the hour.
    pub fn enter(&mut self, hour: u32, entry: Entry) -> Result<(), Refusal> {
        let Entry { demand, losses, bought, price } = entry;
        let (cells, length) = (self.cells.as_mut_ptr(), CELLS);
        refusal_of(unsafe { raw::naomhral_book_enter(cells, length, hour, demand, losses, bought, price) }, hour)
    }

    /// Removes an hour; an empty place stays as it is. Refusal 12, place the hour.
    pub fn remove(&mut self, hour: u32) -> Result<(), Refusal> {
        refusal_of(unsafe { raw::naomhral_book_remove(self.cells.as_mut_ptr(), CELLS, hour) }, hour)
    }

    /// What the book holds of an hour, if it holds it.
    pub fn hour(&self, hour: usize) -> Option<Entry> {
        let place = self.cells[..TOTALS].chunks_exact(5).nth(hour)?;
        let [demand, losses, bought, price] = [place[1] as u32, place[2] as u32, place[3] as u32, place[4] as u32];
        (place[0] == 1).then_some(Entry { demand, losses, bought, price })
    }

    /// The day's demand, losses and bought kWh, and the bought money in centavos.
    pub fn totals(&self) -> [u64; 4] {
        [self.cells[TOTALS], self.cells[TOTALS + 1], self.cells[TOTALS + 2], self.cells[TOTALS + 3]]
    }
}

/// What is entered of a settled hour, from its sheet and from the summary and the figures that [`crate::settle`] left. A book takes it.
pub fn entry(sheet: &[u8], summary: &Summary, figures: &[u32]) -> Result<Entry, Refusal> {
    let told = [0, 0, summary.price, summary.demand, summary.losses];
    let mut answer = [0u32; 6];
    // Each pointer is an array's or a slice's own with its length.
    unsafe {
        raw::naomhral_entry(
            sheet.as_ptr(),
            sheet.len(),
            told.as_ptr(),
            told.len(),
            figures.as_ptr(),
            figures.len(),
            answer.as_mut_ptr(),
            answer.len(),
        );
    }
    let [number, place, demand, losses, bought, price] = answer;
    refusal_of(number, place)?;
    Ok(Entry { demand, losses, bought, price })
}
