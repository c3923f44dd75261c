//! A settlement in careful, safe Rust that sorts only where order matters: the rival that the benchmark sets beside the proved
//! library. One pass over the rows checks them and takes out what is needed; nothing is allocated.

use crate::answers::{Refusal, Summary};

type Answer<T> = Result<T, Refusal>;

const AGENTS: usize = 64;
const PLANTS: usize = 64;
const CONTRACTS: usize = 256;

const ENERGY: u32 = 4_000_000;
const PRICE: u32 = 1_000_000;
const FACTOR: u32 = 5_000;

#[cold]
fn refuse<T>(number: u32, place: usize) -> Answer<T> {
    Err(Refusal::new(number, place as u32))
}

// ---- the sheet

struct Sections<'a> {
    agents: &'a [u8],
    boundaries: &'a [u8],
    plants: &'a [u8],
    contracts: &'a [u8],
}

#[inline]
fn word(row: &[u8], k: usize) -> u32 {
    u32::from_le_bytes(row[4 * k..4 * k + 4].try_into().unwrap())
}

#[inline]
fn rows(section: &[u8]) -> impl Iterator<Item = (usize, [u32; 4])> + '_ {
    let words = |row: &[u8]| [word(row, 0), word(row, 1), word(row, 2), word(row, 3)];
    section.chunks_exact(16).map(words).enumerate()
}

#[inline]
fn sections(sheet: &[u8]) -> Answer<Sections<'_>> {
    let length = sheet.len();
    if !(32..=10_272).contains(&length) || length % 16 != 0 {
        return refuse(1, 0);
    }
    let (body, trailer) = sheet.split_at(length - 32);
    let distance = |s: usize| word(trailer, 2 * s) as usize;
    let count = |s: usize| word(trailer, 2 * s + 1) as usize;
    if count(0) > 64 || count(1) > 256 || count(2) > 64 || count(3) > 256 {
        return refuse(2, 0);
    }
    let third = 16 * count(3);
    let second = third + 16 * count(2);
    let first = second + 16 * count(1);
    let whole = first + 16 * count(0);
    let fits = distance(0) == whole && distance(1) == first && distance(2) == second && distance(3) == third;
    if whole != body.len() || !fits {
        return refuse(2, 0);
    }
    let (agents, rest) = body.split_at(whole - first);
    let (boundaries, rest) = rest.split_at(first - second);
    let (plants, contracts) = rest.split_at(second - third);
    Ok(Sections { agents, boundaries, plants, contracts })
}

// ---- the sharing rule

/// The amount's part of the total, in 2^32nds and not above 1: what `divided` multiplies by.
#[inline]
fn rate(amount: u64, total: u64) -> u64 {
    ((amount << 32) / total).min(1 << 32)
}

/// A weight's proportion rounded down, and the remainder; a division is made only where the rate gives less than the floor.
#[inline]
fn divided(amount: u64, weight: u32, total: u64, rate: u64) -> (u64, u64) {
    let guess = (rate * weight as u64) >> 32;
    let rest = amount * weight as u64 - guess * total;
    if rest < total { (guess, rest) } else { (guess + rest / total, rest % total) }
}

/// The shares of an amount, one a weight, for weights whose total is not 0. `keys` is scratch for as many.
#[inline]
fn share_some(amount: u64, total: u64, weights: &[u32], out: &mut [u32], keys: &mut [u64]) {
    let mut left = amount;
    let mut waiting = 0;
    let keys = &mut keys[..weights.len()];
    let rate = rate(amount, total);
    for (i, (&w, cell)) in weights.iter().zip(out.iter_mut()).enumerate() {
        let (floor, remainder) = divided(amount, w, total, rate);
        *cell = floor as u32;
        left -= floor;
        if remainder != 0 {
            // largest remainder first, then the lower number
            keys[waiting] = (!(remainder << 8) & !255) | i as u64;
            waiting += 1;
        }
    }
    let left = left as usize;
    if left == 0 {
        return;
    }
    let keys = &mut keys[..waiting];
    keys.select_nth_unstable(left - 1);
    for key in &keys[..left] {
        out[(key & 255) as usize] += 1;
    }
}

pub fn share(amount: u32, weights: &[u32], out: &mut [u32]) -> Answer<()> {
    if weights.len() > 256 {
        return refuse(2, 0);
    }
    if out.len() < weights.len() {
        return refuse(11, 0);
    }
    let out = &mut out[..weights.len()];
    let total: u64 = weights.iter().map(|&w| w as u64).sum();
    if amount == 0 || total == 0 {
        out.fill(0);
    } else {
        share_some(amount as u64, total, weights, out, &mut [0; 256]);
    }
    Ok(())
}

// ---- reading the rows

/// What the pass over the rows takes out.
struct Columns {
    // a bit an agent: those metered as generators, and of these the small ones outside central dispatch
    generators: u64,
    small: u64,
    // in ten-thousandths
    imports: [u64; AGENTS],
    exports: [u64; AGENTS],
    holders: [u8; PLANTS],
    // price, row, inflexible and availability in one number, so that the numbers' order is the merit order
    plants: [u64; PLANTS],
    available: u32,
    // what each plant must run, and all of it
    musts: [u32; PLANTS],
    must: u32,
    // price, kind, row and quantity in one number, so that the numbers' order is the contracts' order
    deals: [u64; CONTRACTS],
    sellers: [u8; CONTRACTS],
    buyers: [u8; CONTRACTS],
    // by buyer: the count of its contracts, then its quantities of kinds 1, 2 and 3
    of_buyer: [[u32; 4]; AGENTS],
}

#[inline]
fn referred(reading: u32, factor: u32) -> u64 {
    reading as u64 * (10_000 + factor as u64)
}

/// Ten-thousandths as whole kWh, half upwards.
#[inline]
fn rounded(tenths: u64) -> u32 {
    ((tenths + 5_000) / 10_000) as u32
}

#[inline]
fn agent_rows(s: &Sections, c: &mut Columns) -> Answer<()> {
    for (i, row) in s.agents.chunks_exact(16).enumerate() {
        let kind = u128::from_le_bytes(row.try_into().unwrap());
        if kind.wrapping_sub(1) > 2 {
            return refuse(3, i);
        }
        c.generators |= ((kind != 1) as u64) << (i & 63);
        c.small |= ((kind == 3) as u64) << (i & 63);
    }
    Ok(())
}

#[inline]
fn boundary_rows(s: &Sections, c: &mut Columns, agents: u32) -> Answer<()> {
    for (i, [who, filler, import, export]) in rows(s.boundaries) {
        let (agent, factor) = (who & 0xffff, who >> 16);
        let generates = (c.generators >> (agent & 63)) & 1 == 1;
        let bad = (agent >= agents)
            | (factor > FACTOR)
            | (import > ENERGY)
            | (export > ENERGY)
            | (filler != 0)
            | (generates & (factor != 0));
        if bad {
            return refuse(4, i);
        }
        let a = (agent & 63) as usize;
        c.imports[a] += referred(import, factor);
        c.exports[a] += referred(export, factor);
    }
    Ok(())
}

#[inline]
fn plant_rows(s: &Sections, c: &mut Columns) -> Answer<()> {
    for (i, [who, must, price, availability]) in rows(s.plants) {
        let (agent, flag) = (who & 0xffff, who >> 16);
        let generates = (agent < 64) & (((c.generators & !c.small) >> (agent & 63)) & 1 == 1);
        let bad_must = (must > availability) | ((flag == 0) & (must != 0));
        if !generates | (flag > 1) | (price > PRICE) | (availability > ENERGY) | bad_must {
            return refuse(5, i);
        }
        c.holders[i & 63] = agent as u8;
        c.plants[i & 63] = (price as u64) << 32 | (i as u64) << 24 | (flag as u64) << 23 | availability as u64;
        c.available += availability;
        c.musts[i & 63] = must;
        c.must += must;
    }
    Ok(())
}

#[inline]
fn contract_rows(s: &Sections, c: &mut Columns, agents: u32) -> Answer<()> {
    for (i, [who, kind, price, quantity]) in rows(s.contracts) {
        let (seller, buyer) = (who & 0xffff, who >> 16);
        let sells = (seller < 64) & ((c.generators >> (seller & 63)) & 1 == 1);
        let buys = (buyer < agents) & ((c.generators >> (buyer & 63)) & 1 == 0);
        if !sells | !buys | (kind.wrapping_sub(1) > 2) | (price > PRICE) | (quantity > ENERGY) {
            return refuse(6, i);
        }
        let i = i & 255;
        c.sellers[i] = seller as u8;
        c.buyers[i] = buyer as u8;
        c.deals[i] = (price as u64) << 34 | (kind as u64) << 32 | (i as u64) << 24 | quantity as u64;
        let b = &mut c.of_buyer[(buyer & 63) as usize];
        b[0] += 1;
        b[(kind & 3) as usize] += quantity;
    }
    Ok(())
}

// ---- the hour

pub fn settle(
    sheet: &[u8],
    figures: &mut [u32],
    money: &mut [i64],
    schedule: &mut [u32],
    amounts: &mut [u32],
) -> Answer<Summary> {
    let s = sections(sheet)?;
    let agents = s.agents.len() / 16;
    let plants = s.plants.len() / 16;
    let contracts = s.contracts.len() / 16;
    let mut c = Columns {
        generators: 0,
        small: 0,
        imports: [0; AGENTS],
        exports: [0; AGENTS],
        holders: [0; PLANTS],
        plants: [0; PLANTS],
        available: 0,
        musts: [0; PLANTS],
        must: 0,
        deals: [0; CONTRACTS],
        sellers: [0; CONTRACTS],
        buyers: [0; CONTRACTS],
        of_buyer: [[0; 4]; AGENTS],
    };
    agent_rows(&s, &mut c)?;
    boundary_rows(&s, &mut c, agents as u32)?;
    plant_rows(&s, &mut c)?;
    contract_rows(&s, &mut c, agents as u32)?;

    // the balance
    let generators = c.generators;
    let generates = |a: usize| (generators >> (a & 63)) & 1 == 1;
    let mut consumption = [0u32; AGENTS];
    let small = c.small;
    let mut injected = 0u32;
    let (mut entering, mut consumed, mut own_imports) = (0u32, 0u32, 0u32);
    for a in 0..agents {
        let (import, export) = (c.imports[a], c.exports[a]);
        if generates(a) {
            entering += rounded(export);
            own_imports += rounded(import);
            if (small >> (a & 63)) & 1 == 1 {
                injected += rounded(export);
            }
        } else {
            if export > import {
                return refuse(7, a);
            }
            consumption[a] = rounded(import - export);
            consumed += consumption[a];
        }
    }
    let leaving = consumed + own_imports;
    if entering < leaving {
        return refuse(8, 0);
    }
    let losses = entering - leaving;
    if losses > 0 && consumed == 0 {
        return refuse(9, 0);
    }
    let demand = consumed + losses + own_imports;
    // what small generators export needs no schedule
    let target = demand - injected;
    if c.available < target {
        return refuse(10, 0);
    }
    if c.must > target {
        return refuse(13, 0);
    }
    let roomy = figures.len() >= 6 * agents && money.len() >= agents && schedule.len() >= plants && amounts.len() >= contracts;
    if !roomy {
        return refuse(11, 0);
    }
    let figures = &mut figures[..6 * agents];
    let money = &mut money[..agents];
    let schedule = &mut schedule[..plants];
    let amounts = &mut amounts[..contracts];

    let mut keys = [0u64; 256];
    let mut losses_of = [0u32; AGENTS];
    if losses > 0 {
        share_some(losses as u64, consumed as u64, &consumption[..agents], &mut losses_of[..agents], &mut keys);
    }

    // own energy: a retailer's commercial demand, a small generator's export, any other's schedule
    let mut own = [0u32; AGENTS];
    for a in 0..agents {
        own[a] = if (small >> (a & 63)) & 1 == 1 { rounded(c.exports[a]) } else { consumption[a] + losses_of[a] };
    }
    let price = dispatch(&mut c.plants[..plants], &c.holders, &c.musts, target - c.must, schedule, &mut own);

    let mut contracted = [0u32; AGENTS];
    assign(&mut c, contracts, agents, &own, amounts, &mut contracted, &mut keys);

    for (a, (line, cell)) in figures.chunks_exact_mut(6).zip(money.iter_mut()).enumerate() {
        let short = own[a].saturating_sub(contracted[a]);
        let over = contracted[a].saturating_sub(own[a]);
        let taken = if generates(a) { rounded(c.imports[a]) } else { 0 };
        let (import, bought, sold) = if generates(a) { (taken, over + taken, short) } else { (0, short, over) };
        line.copy_from_slice(&[losses_of[a], own[a], import, contracted[a], bought, sold]);
        *cell = (sold as i64 - bought as i64) * price as i64;
    }
    Ok(Summary { price, demand, losses })
}

/// Schedules what each plant must run and, by merit, the rest of the demand; adds each schedule to its holder's energy and hands
/// back the price.
#[inline]
fn dispatch(
    plants: &mut [u64],
    holders: &[u8; PLANTS],
    musts: &[u32; PLANTS],
    rest: u32,
    schedule: &mut [u32],
    own: &mut [u32; AGENTS],
) -> u32 {
    let mut left = rest;
    let mut price = 0;
    if left > 0 {
        plants.sort_unstable();
    }
    for &plant in plants.iter() {
        let row = (plant >> 24) as usize & 63;
        let more = left.min((plant as u32 & 0x7f_ffff) - musts[row]);
        let given = musts[row] + more;
        schedule[row] = given;
        own[(holders[row] & 63) as usize] += given;
        left -= more;
        if given > 0 && plant >> 23 & 1 == 0 {
            price = (plant >> 32) as u32;
        }
    }
    price
}

/// Assigns the contracts. Where a buyer's demand takes all of a kind, or none of it, no order is asked for; the rest is put
/// together by buyer and each buyer's part is sorted.
#[inline]
fn assign(
    c: &mut Columns,
    contracts: usize,
    agents: usize,
    own: &[u32; AGENTS],
    amounts: &mut [u32],
    contracted: &mut [u32; AGENTS],
    keys: &mut [u64; 256],
) {
    const FIXED: u8 = 1 << 1;
    const CONDITIONAL: u8 = 1 << 2;
    const DEMANDED: u8 = 1 << 3;
    const SORTED: u8 = 1 << 4;
    // by buyer: the kinds that are assigned in full, and those that are sorted (four bits higher)
    let mut ways = [0u8; AGENTS];
    let mut ends = [0u16; AGENTS];
    let mut sorted = 0u64;
    let mut start = 0;
    for a in 0..agents {
        let [count, fixed, conditional, demanded] = c.of_buyer[a];
        if count == 0 {
            continue;
        }
        let demand = own[a];
        let firm = fixed + conditional;
        let (way, given) = if firm > demand && conditional > 0 && demand > 0 {
            // fixed contracts stand among the conditional ones; what is given comes out of their order
            ((FIXED | CONDITIONAL) * SORTED, 0)
        } else if firm > demand {
            (FIXED, fixed)
        } else if firm + demanded <= demand {
            (FIXED | CONDITIONAL | DEMANDED, firm + demanded)
        } else if firm < demand {
            (FIXED | CONDITIONAL | (DEMANDED * SORTED), demand)
        } else {
            (FIXED | CONDITIONAL, firm)
        };
        ways[a] = way;
        contracted[a] = given;
        if way >= SORTED {
            sorted |= 1 << a;
            ends[a] = start;
            start += count as u16;
        }
    }

    for (i, cell) in amounts.iter_mut().enumerate().take(contracts) {
        let deal = c.deals[i & 255];
        let way = ways[(c.buyers[i & 255] & 63) as usize] >> (deal >> 32 & 3);
        if way & SORTED != 0 {
            let end = &mut ends[(c.buyers[i & 255] & 63) as usize];
            keys[*end as usize & 255] = deal;
            *end += 1;
        } else {
            let amount = if way & 1 != 0 { quantity(deal) } else { 0 };
            *cell = amount;
            contracted[(c.sellers[i & 255] & 63) as usize] += amount;
        }
    }

    let mut start = 0;
    while sorted != 0 {
        let a = sorted.trailing_zeros() as usize;
        sorted &= sorted - 1;
        let [count, fixed, conditional, _] = c.of_buyer[a];
        let part = &mut keys[start..ends[a] as usize];
        start += count as usize;
        part.sort_unstable();
        if ways[a] & (DEMANDED * SORTED) == 0 {
            contracted[a] = firm_part(part, own[a], amounts);
        } else {
            demanded_part(part, own[a] - fixed - conditional, amounts);
        }
        for &deal in part.iter() {
            contracted[(c.sellers[row(deal)] & 63) as usize] += amounts[row(deal)];
        }
    }
}

#[inline]
fn quantity(deal: u64) -> u32 {
    deal as u32 & 0x7f_ffff
}

#[inline]
fn row(deal: u64) -> usize {
    (deal >> 24) as usize & 255
}

/// Kinds 1 and 2 of one buyer, in order; hands back what they are given.
#[inline]
fn firm_part(part: &[u64], demand: u32, amounts: &mut [u32]) -> u32 {
    let (mut ahead, mut given) = (0, 0);
    for &deal in part {
        let fixed = deal >> 32 & 3 == 1;
        let amount = if fixed || ahead < demand { quantity(deal) } else { 0 };
        amounts[row(deal)] = amount;
        given += amount;
        ahead += quantity(deal);
    }
    given
}

/// Kind 3 of one buyer, in order, of what remains of its demand.
#[inline]
fn demanded_part(part: &mut [u64], rest: u32, amounts: &mut [u32]) {
    let mut left = rest;
    let mut first = 0;
    while first < part.len() {
        let price = part[first] >> 34;
        let mut next = first;
        let mut total = 0;
        while next < part.len() && part[next] >> 34 == price {
            amounts[row(part[next])] = quantity(part[next]);
            total += quantity(part[next]);
            next += 1;
        }
        if total > left {
            share_group(&mut part[first..next], total as u64, left as u64, amounts);
            for &deal in &part[next..] {
                amounts[row(deal)] = 0;
            }
            return;
        }
        left -= total;
        first = next;
    }
}

/// The group that shares: as `share_some`, but the remainder takes the place of price and kind in the group's own numbers, above the
/// row, so that their order is that of the remainders.
#[inline]
fn share_group(group: &mut [u64], total: u64, amount: u64, amounts: &mut [u32]) {
    let mut left = amount;
    let rate = rate(amount, total);
    for deal in group.iter_mut() {
        let (floor, remainder) = divided(amount, quantity(*deal), total, rate);
        amounts[row(*deal)] = floor as u32;
        left -= floor;
        *deal = !remainder << 32 | (*deal & 0xffff_ffff);
    }
    let left = left as usize;
    if left > 0 {
        group.select_nth_unstable(left - 1);
        for &key in &group[..left] {
            amounts[row(key)] += 1;
        }
    }
}
