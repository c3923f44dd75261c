//! One hour of the Colombian wholesale market, settled by the proved library.
//!
//! Every function takes lists as slices and refuses what it cannot take with a [`Refusal`], which leaves the lent lists as
//! they were. Cells past those needed keep their old values. The numbers are those of document 01 and of `docs/USING.md`.
//!
//! ```no_run
//! let sheet = std::fs::read("../examples/worked-hour.sheet").unwrap();
//! let mut figures = [0; naomhral::FIGURES_MOST];
//! let mut money = [0; naomhral::AGENTS_MOST];
//! let mut schedule = [0; naomhral::PLANTS_MOST];
//! let mut amounts = [0; naomhral::CONTRACTS_MOST];
//! match naomhral::settle(&sheet, &mut figures, &mut money, &mut schedule, &mut amounts) {
//!     Ok(summary) => println!("{} centavos per kWh", summary.price),
//!     Err(refusal) => println!("{refusal}"),
//! }
//! ```
//!
//! [`plain`], [`plain_text`], [`statement`] and [`fast`] do not call the library: they are what the tests and the benchmark hold it against.

mod answers;
mod book;
pub mod fast;
mod mend;
pub mod plain;
pub mod plain_reasons;
pub mod plain_text;
pub mod raw;
mod reasons;
pub mod sheets;
pub mod statement;
mod texts;

pub use answers::{Counts, Refusal, Summary};
pub use reasons::{why_contract, why_plant, ContractCase, ContractReason, PlantCase, PlantReason};
pub use book::{entry, Book, Entry};
pub use mend::{mend, Change};
pub use texts::{make_sheet, read_statement, sheet_text, statement_text, Fault, Unmade, WrongLine};

pub const AGENTS_MOST: usize = 64;
pub const BOUNDARIES_MOST: usize = 256;
pub const PLANTS_MOST: usize = 64;
pub const CONTRACTS_MOST: usize = 256;

/// The cells of figures that suffice for every sheet: six an agent.
pub const FIGURES_MOST: usize = 6 * AGENTS_MOST;

/// The longest sheet.
pub const SHEET_MOST: usize = 10_272;

/// A buffer that suffices for the page of every sheet.
pub const PAGE_MOST: usize = 5_120;

/// A buffer that suffices for the text of every sheet.
pub const SHEET_TEXT_MOST: usize = 72_960;

/// A buffer that suffices for every statement of ours as text.
pub const STATEMENT_TEXT_MOST: usize = 27_547;

/// The cells of a report that suffice for every sheet: three for each of the 1,808 bytes that mending can change.
pub const REPORT_MOST: usize = 5_424;

/// The weights that sharing takes at most.
pub const WEIGHTS_MOST: usize = 256;

fn refusal_of(number: u32, place: u32) -> Result<(), Refusal> {
    if number == 0 {
        Ok(())
    } else {
        Err(Refusal::new(number, place))
    }
}

/// Settles an hour. Figures take six cells an agent (loss share, own energy, generator import, contracted, bought, sold),
/// money one an agent, schedule one a plant, amounts one a contract. Refusals 1 to 10, 13 and 11, in this order.
pub fn settle(
    sheet: &[u8],
    figures: &mut [u32],
    money: &mut [i64],
    schedule: &mut [u32],
    amounts: &mut [u32],
) -> Result<Summary, Refusal> {
    let mut summary = [0u32; 5];
    // Each pointer is a slice's own with its length, and the exclusive ones do not overlap.
    unsafe {
        raw::naomhral_settle(
            sheet.as_ptr(),
            sheet.len(),
            figures.as_mut_ptr(),
            figures.len(),
            money.as_mut_ptr(),
            money.len(),
            schedule.as_mut_ptr(),
            schedule.len(),
            amounts.as_mut_ptr(),
            amounts.len(),
            summary.as_mut_ptr(),
            summary.len(),
        );
    }
    let [number, place, price, demand, losses] = summary;
    refusal_of(number, place)?;
    Ok(Summary { price, demand, losses })
}

/// The hours of a day.
pub const HOURS: usize = 24;

/// Each hour of a day as [`settle`] answers it, or the refusal of the whole call.
pub type Day = Result<[Result<Summary, Refusal>; HOURS], Refusal>;

/// Settles the 24 hours of a day, whose sheets stand one behind another, each as [`settle`] settles it alone into its own part of the
/// four lists: hour h's part of the figures is the [`FIGURES_MOST`] cells from `FIGURES_MOST * h` on, and so in the other three. A
/// refused hour leaves its part as it was. The whole call is refused before any hour is read: 1 if the lengths sum to more than the
/// bytes lent, then 11 if a list is too short for 24 parts.
pub fn day(
    sheets: &[u8],
    lengths: &[u32; HOURS],
    figures: &mut [u32],
    money: &mut [i64],
    schedule: &mut [u32],
    amounts: &mut [u32],
) -> Day {
    let mut summaries = [0u32; 5 * HOURS];
    // As in `settle`; the lengths are 24 behind a pointer of their own.
    let whole = unsafe {
        raw::naomhral_day(
            sheets.as_ptr(),
            sheets.len(),
            lengths.as_ptr(),
            figures.as_mut_ptr(),
            figures.len(),
            money.as_mut_ptr(),
            money.len(),
            schedule.as_mut_ptr(),
            schedule.len(),
            amounts.as_mut_ptr(),
            amounts.len(),
            summaries.as_mut_ptr(),
            summaries.len(),
        )
    };
    refusal_of(whole, 0)?;
    Ok(std::array::from_fn(|hour| {
        let told = &summaries[5 * hour..5 * hour + 5];
        refusal_of(told[0], told[1])?;
        Ok(Summary { price: told[2], demand: told[3], losses: told[4] })
    }))
}

/// Checks an administrator's statement of a sheet's hour: a price and the four lists, in the shape in which [`settle`] leaves
/// them. Every statement that could be right is accepted, and no other. Refusals 1 to 10, 13 and 11 as in settling the sheet,
/// then 21 to 25 for the first of the five points that fails. Cells past those needed are not looked at.
pub fn check(sheet: &[u8], price: u32, figures: &[u32], money: &[i64], schedule: &[u32], amounts: &[u32]) -> Result<(), Refusal> {
    let mut answer = [0u32; 2];
    // As in `settle`.
    unsafe {
        raw::naomhral_check(
            sheet.as_ptr(),
            sheet.len(),
            price,
            figures.as_ptr(),
            figures.len(),
            money.as_ptr(),
            money.len(),
            schedule.as_ptr(),
            schedule.len(),
            amounts.as_ptr(),
            amounts.len(),
            answer.as_mut_ptr(),
            answer.len(),
        );
    }
    let [number, place] = answer;
    refusal_of(number, place)
}

/// Reads a sheet and hands back its counts. Refusals 1 to 6.
pub fn read(sheet: &[u8]) -> Result<Counts, Refusal> {
    let mut answer = [0u32; 6];
    // As in `settle`.
    unsafe {
        raw::naomhral_read(sheet.as_ptr(), sheet.len(), answer.as_mut_ptr(), answer.len());
    }
    let [number, place, agents, boundaries, plants, contracts] = answer;
    refusal_of(number, place)?;
    Ok(Counts { agents, boundaries, plants, contracts })
}

/// Writes a sheet from one list a section, the named fields row by row: 1 number an agent (kind), 4 a boundary (agent, factor,
/// import, export), 5 a plant (agent, inflexible, must-run, price, availability), 5 a contract (seller, buyer, kind, price,
/// quantity). Hands back the length written. Refusals 2 to 6 and 11.
pub fn write(agents: &[u32], boundaries: &[u32], plants: &[u32], contracts: &[u32], out: &mut [u8]) -> Result<usize, Refusal> {
    let mut answer = [0u32; 3];
    // As in `settle`.
    unsafe {
        raw::naomhral_write(
            agents.as_ptr(),
            agents.len(),
            boundaries.as_ptr(),
            boundaries.len(),
            plants.as_ptr(),
            plants.len(),
            contracts.as_ptr(),
            contracts.len(),
            out.as_mut_ptr(),
            out.len(),
            answer.as_mut_ptr(),
            answer.len(),
        );
    }
    let [number, place, length] = answer;
    refusal_of(number, place)?;
    Ok(length as usize)
}

/// Shares an amount over weights, one share a weight. Refusals 2 (more than 256 weights) and 11, place 0.
pub fn share(amount: u32, weights: &[u32], out: &mut [u32]) -> Result<(), Refusal> {
    // As in `settle`.
    let number = unsafe { raw::naomhral_share(amount, weights.as_ptr(), weights.len(), out.as_mut_ptr(), out.len()) };
    refusal_of(number, 0)
}

/// Writes the printed page of a sheet and hands back its length. A refused sheet has a page too, its line `refused N P`, so
/// the one refusal here is 11, a page that has no room.
pub fn page(sheet: &[u8], out: &mut [u8]) -> Result<usize, Refusal> {
    let mut answer = [0u32; 3];
    // As in `settle`.
    unsafe {
        raw::naomhral_page(sheet.as_ptr(), sheet.len(), out.as_mut_ptr(), out.len(), answer.as_mut_ptr(), answer.len());
    }
    let [number, place, length] = answer;
    refusal_of(number, place)?;
    Ok(length as usize)
}
