//! Why did I get this? The reason of one plant or one contract of a sheet, with the figures that it rests on.

use crate::{raw, refusal_of, Refusal};

/// Why a plant is scheduled as it is.
#[derive(Clone, Copy, Debug, PartialEq, Eq)]
pub enum PlantReason {
    /// Nothing available.
    Nothing,
    /// Scheduled to the full.
    Full,
    /// Only its must-run, which is above 0.
    Must,
    /// Partly scheduled, the last one needed.
    Last,
    /// Not reached.
    Beyond,
}

impl PlantReason {
    pub fn number(self) -> u32 {
        match self {
            PlantReason::Nothing => 1,
            PlantReason::Full => 2,
            PlantReason::Must => 3,
            PlantReason::Last => 4,
            PlantReason::Beyond => 5,
        }
    }
}

/// The reason with the plant's figures in kWh, its offer and the bolsa price in centavos per kWh.
#[derive(Clone, Copy, Debug, PartialEq, Eq)]
pub struct PlantCase {
    pub reason: PlantReason,
    pub scheduled: u32,
    pub available: u32,
    pub must_run: u32,
    pub offer: u32,
    pub price: u32,
}

/// Why a contract is assigned its amount, in kWh: the quantities ahead of a conditional contract and its buyer's commercial demand; what
/// is left when a price group is reached and what the group asks in all.
#[derive(Clone, Copy, Debug, PartialEq, Eq)]
pub enum ContractReason {
    Fixed,
    /// Conditional and needed.
    Needed { ahead: u32, demand: u32 },
    /// Conditional, and the energy ahead already covered the demand.
    Covered { ahead: u32, demand: u32 },
    /// Demanded, in a price group that fits.
    Fits { remainder: u32, total: u32 },
    /// In the group that shares.
    Shares { remainder: u32, total: u32 },
    /// In a dearer group.
    Dearer { remainder: u32, total: u32 },
}

impl ContractReason {
    pub fn number(self) -> u32 {
        match self {
            ContractReason::Fixed => 1,
            ContractReason::Needed { .. } => 2,
            ContractReason::Covered { .. } => 3,
            ContractReason::Fits { .. } => 4,
            ContractReason::Shares { .. } => 5,
            ContractReason::Dearer { .. } => 6,
        }
    }
}

/// The reason with the contract's figures: kWh, kWh and centavos per kWh.
#[derive(Clone, Copy, Debug, PartialEq, Eq)]
pub struct ContractCase {
    pub reason: ContractReason,
    pub quantity: u32,
    pub amount: u32,
    pub price: u32,
}

/// Why plant number `plant`, from 0, is scheduled as it is. Refusals 1 to 10 and 13, then 12, place the number asked for.
pub fn why_plant(sheet: &[u8], plant: u32) -> Result<PlantCase, Refusal> {
    let mut answer = [0u32; 8];
    // As in `settle`.
    unsafe {
        raw::naomhral_why_plant(sheet.as_ptr(), sheet.len(), plant, answer.as_mut_ptr(), answer.len());
    }
    let [number, place, reason, scheduled, available, must_run, offer, price] = answer;
    refusal_of(number, place)?;
    let reason = match reason {
        1 => PlantReason::Nothing,
        2 => PlantReason::Full,
        3 => PlantReason::Must,
        4 => PlantReason::Last,
        _ => PlantReason::Beyond,
    };
    Ok(PlantCase { reason, scheduled, available, must_run, offer, price })
}

/// Why contract number `contract`, from 0, is assigned its amount. Refusals 1 to 10 and 13, then 12, place the number asked for.
pub fn why_contract(sheet: &[u8], contract: u32) -> Result<ContractCase, Refusal> {
    let mut answer = [0u32; 8];
    // As in `settle`.
    unsafe {
        raw::naomhral_why_contract(sheet.as_ptr(), sheet.len(), contract, answer.as_mut_ptr(), answer.len());
    }
    let [number, place, reason, quantity, amount, price, first, second] = answer;
    refusal_of(number, place)?;
    let reason = match reason {
        1 => ContractReason::Fixed,
        2 => ContractReason::Needed { ahead: first, demand: second },
        3 => ContractReason::Covered { ahead: first, demand: second },
        4 => ContractReason::Fits { remainder: first, total: second },
        5 => ContractReason::Shares { remainder: first, total: second },
        _ => ContractReason::Dearer { remainder: first, total: second },
    };
    Ok(ContractCase { reason, quantity, amount, price })
}
