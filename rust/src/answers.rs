//! What the functions answer: a refusal, or the summary of an hour, or the counts of a sheet.

/// Why a call was turned away: the number of document 01's table and the place that it names.
#[derive(Clone, Copy, Debug, PartialEq, Eq, Hash)]
pub struct Refusal {
    pub number: u32,
    pub place: u32,
}

impl Refusal {
    pub const LENGTH: u32 = 1;
    pub const LAYOUT: u32 = 2;
    pub const AGENT: u32 = 3;
    pub const BOUNDARY: u32 = 4;
    pub const PLANT: u32 = 5;
    pub const CONTRACT: u32 = 6;
    pub const EXPORTS: u32 = 7;
    pub const GAIN: u32 = 8;
    pub const UNSHARED: u32 = 9;
    pub const UNCOVERED: u32 = 10;
    pub const NO_ROOM: u32 = 11;
    pub const NOT_THERE: u32 = 12;
    pub const OVERRUN: u32 = 13;
    pub const OVER_BOOK: u32 = 16;
    pub const SHARES: u32 = 21;
    pub const SCHEDULE: u32 = 22;
    pub const PRICE: u32 = 23;
    pub const AMOUNTS: u32 = 24;
    pub const LINES: u32 = 25;

    pub const fn new(number: u32, place: u32) -> Refusal {
        Refusal { number, place }
    }

    /// The table's row in a few words.
    pub fn meaning(&self) -> &'static str {
        match self.number {
            Refusal::LENGTH => "the length is no sheet's",
            Refusal::LAYOUT => "the counts or distances do not fit",
            Refusal::AGENT => "a bad agent row",
            Refusal::BOUNDARY => "a bad boundary row",
            Refusal::PLANT => "a bad plant row",
            Refusal::CONTRACT => "a bad contract row",
            Refusal::EXPORTS => "a retailer's referred exports exceed its referred imports",
            Refusal::GAIN => "losses below zero",
            Refusal::UNSHARED => "losses, and no consumption to share them over",
            Refusal::UNCOVERED => "availabilities sum to less than the demand",
            Refusal::NO_ROOM => "a lent list or buffer is too short",
            Refusal::NOT_THERE => "no such row, section or hour",
            Refusal::OVERRUN => "must-runs sum to more than the demand",
            Refusal::OVER_BOOK => "the hour's numbers are over what a day's book holds",
            Refusal::SHARES => "the statement's loss shares do not follow",
            Refusal::SCHEDULE => "the statement's schedule does not follow",
            Refusal::PRICE => "the statement's price does not follow",
            Refusal::AMOUNTS => "the statement's contract amounts do not follow",
            Refusal::LINES => "the statement's lines do not follow",
            _ => "an unknown refusal",
        }
    }
}

impl std::fmt::Display for Refusal {
    fn fmt(&self, f: &mut std::fmt::Formatter<'_>) -> std::fmt::Result {
        write!(f, "refused {} {}: {}", self.number, self.place, self.meaning())
    }
}

impl std::error::Error for Refusal {}

/// The first line of a settled hour: centavos per kWh, kWh and kWh.
#[derive(Clone, Copy, Debug, PartialEq, Eq)]
pub struct Summary {
    pub price: u32,
    pub demand: u32,
    pub losses: u32,
}

/// How many rows each section of an accepted sheet has.
#[derive(Clone, Copy, Debug, PartialEq, Eq)]
pub struct Counts {
    pub agents: u32,
    pub boundaries: u32,
    pub plants: u32,
    pub contracts: u32,
}
