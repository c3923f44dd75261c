//! P3 of document 02 written out plainly, over the hour of [`crate::plain`]: the tests hold the proved library against it.

use crate::plain::{hour, open, Contract};
use crate::reasons::{ContractCase, ContractReason, PlantCase, PlantReason};
use crate::Refusal;

pub fn why_plant(sheet: &[u8], plant: u32) -> Result<PlantCase, Refusal> {
    let (rows, hour) = (open(sheet)?, hour(sheet)?);
    let i = plant as usize;
    let Some(p) = rows.plants.get(i) else { return Err(Refusal::new(Refusal::NOT_THERE, plant)) };
    let scheduled = hour.schedule[i] as u32;
    let reason = if p.availability == 0 {
        PlantReason::Nothing
    } else if scheduled == p.availability {
        PlantReason::Full
    } else if p.must_run > 0 && scheduled == p.must_run {
        PlantReason::Must
    } else if scheduled > 0 {
        PlantReason::Last
    } else {
        PlantReason::Beyond
    };
    let price = hour.price as u32;
    Ok(PlantCase { reason, scheduled, available: p.availability, must_run: p.must_run, offer: p.price, price })
}

pub fn why_contract(sheet: &[u8], contract: u32) -> Result<ContractCase, Refusal> {
    let (rows, hour) = (open(sheet)?, hour(sheet)?);
    let j = contract as usize;
    let Some(c) = rows.contracts.get(j) else { return Err(Refusal::new(Refusal::NOT_THERE, contract)) };
    let own: Vec<usize> = (0..rows.contracts.len()).filter(|&i| rows.contracts[i].buyer == c.buyer).collect();
    let demand = hour.lines[c.buyer as usize].own;
    let reason = match c.kind {
        1 => ContractReason::Fixed,
        2 => conditional(demand, &rows.contracts, &own, j),
        _ => {
            let firm: u64 = own.iter().filter(|&&i| rows.contracts[i].kind != 3).map(|&i| hour.amounts[i]).sum();
            demanded(demand.saturating_sub(firm), &rows.contracts, &own, c.price)
        }
    };
    Ok(ContractCase { reason, quantity: c.quantity, amount: hour.amounts[j] as u32, price: c.price })
}

/// By rising price, kind 1 before kind 2, then the lower row.
fn conditional(demand: u64, rows: &[Contract], own: &[usize], j: usize) -> ContractReason {
    let key = |i: usize| (rows[i].price, rows[i].kind, i);
    let before = own.iter().filter(|&&i| rows[i].kind != 3 && key(i) < key(j));
    let ahead: u64 = before.map(|&i| rows[i].quantity as u64).sum();
    let (covered, ahead, demand) = (ahead >= demand, ahead as u32, demand as u32);
    if covered {
        ContractReason::Covered { ahead, demand }
    } else {
        ContractReason::Needed { ahead, demand }
    }
}

/// Group by group, by rising price, until that of this price is reached.
fn demanded(rest: u64, rows: &[Contract], own: &[usize], price: u32) -> ContractReason {
    let mut prices: Vec<u32> = own.iter().filter(|&&i| rows[i].kind == 3).map(|&i| rows[i].price).collect();
    prices.sort();
    prices.dedup();
    let (mut left, mut shared) = (rest, false);
    for other in prices {
        let group = own.iter().filter(|&&i| rows[i].kind == 3 && rows[i].price == other);
        let total: u64 = group.map(|&i| rows[i].quantity as u64).sum();
        if other == price {
            let (fits, remainder, total) = (total <= left, left as u32, total as u32);
            return match (shared, fits) {
                (true, _) => ContractReason::Dearer { remainder, total },
                (false, true) => ContractReason::Fits { remainder, total },
                (false, false) => ContractReason::Shares { remainder, total },
            };
        }
        shared |= total > left;
        left = left.saturating_sub(total);
    }
    unreachable!("a contract of kind 3 has a group")
}
