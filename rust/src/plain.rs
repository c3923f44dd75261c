//! Document 01 with P1, P5 and P7 of document 02 written out plainly, from the papers alone: wide numbers, sorted copies, no thought of
//! speed. The tests hold the proved library against it. Its functions have the shapes of the wrapper's.

use crate::answers::{Counts, Refusal, Summary};

type Answer<T> = Result<T, Refusal>;

fn refuse<T>(number: u32, place: usize) -> Answer<T> {
    Err(Refusal::new(number, place as u32))
}

// ---- the hour sheet

const ROW: usize = 16;
const TRAILER: usize = 32;
const LONGEST: usize = 10_272;
const LIMITS: [u64; 4] = [64, 256, 64, 256];

const ENERGY: u32 = 4_000_000;
const PRICE: u32 = 1_000_000;
const FACTOR: u32 = 5_000;

const RETAILER: u32 = 1;
const GENERATOR: u32 = 2;
// outside central dispatch
const SMALL: u32 = 3;

pub struct Boundary {
    pub agent: u32,
    pub factor: u32,
    pub import: u32,
    pub export: u32,
}

pub struct Plant {
    pub agent: u32,
    pub inflexible: u32,
    pub must_run: u32,
    pub price: u32,
    pub availability: u32,
}

pub struct Contract {
    pub seller: u32,
    pub buyer: u32,
    pub kind: u32,
    pub price: u32,
    pub quantity: u32,
}

/// The rows of an accepted sheet.
pub struct Sheet {
    pub kinds: Vec<u32>,
    pub boundaries: Vec<Boundary>,
    pub plants: Vec<Plant>,
    pub contracts: Vec<Contract>,
}

impl Sheet {
    fn kind_of(&self, agent: u32) -> Option<u32> {
        self.kinds.get(agent as usize).copied()
    }

    fn generates(&self, agent: u32) -> bool {
        matches!(self.kind_of(agent), Some(GENERATOR | SMALL))
    }

    fn good_boundary(&self, b: &Boundary) -> bool {
        self.kind_of(b.agent).is_some()
            && b.factor <= FACTOR
            && b.import <= ENERGY
            && b.export <= ENERGY
            && !(self.generates(b.agent) && b.factor != 0)
    }

    fn good_plant(&self, p: &Plant) -> bool {
        let must_run_most = if p.inflexible == 0 { 0 } else { p.availability };
        self.kind_of(p.agent) == Some(GENERATOR)
            && p.inflexible <= 1
            && p.must_run <= must_run_most
            && p.price <= PRICE
            && p.availability <= ENERGY
    }

    fn good_contract(&self, c: &Contract) -> bool {
        self.generates(c.seller)
            && self.kind_of(c.buyer) == Some(RETAILER)
            && (1..=3).contains(&c.kind)
            && c.price <= PRICE
            && c.quantity <= ENERGY
    }
}

fn good_kind(kind: u32) -> bool {
    kind == RETAILER || kind == GENERATOR || kind == SMALL
}

/// Four words of a row.
fn words(row: &[u8]) -> [u32; 4] {
    let word = |k: usize| u32::from_le_bytes([row[4 * k], row[4 * k + 1], row[4 * k + 2], row[4 * k + 3]]);
    [word(0), word(1), word(2), word(3)]
}

/// The two halves of a word, the lower bytes first.
fn halves(word: u32) -> (u32, u32) {
    (word % 65_536, word / 65_536)
}

/// Refusals 1 to 6, or the rows.
pub fn open(sheet: &[u8]) -> Answer<Sheet> {
    let length = sheet.len();
    if !(TRAILER..=LONGEST).contains(&length) || length % ROW != 0 {
        return refuse(1, 0);
    }
    let body = length - TRAILER;
    let [d0, n0, d1, n1] = words(&sheet[body..]);
    let [d2, n2, d3, n3] = words(&sheet[body + ROW..]);
    let distances = [d0, d1, d2, d3].map(u64::from);
    let counts = [n0, n1, n2, n3].map(u64::from);
    if (0..4).any(|s| counts[s] > LIMITS[s]) {
        return refuse(2, 0);
    }
    if length as u64 != 32 + 16 * counts.iter().sum::<u64>() {
        return refuse(2, 0);
    }
    // from the trailer back to a section lie its own rows and those of the sections behind it
    if (0..4).any(|s| distances[s] != 16 * counts[s..].iter().sum::<u64>()) {
        return refuse(2, 0);
    }

    let rows_of = |s: usize| {
        let first = body - distances[s] as usize;
        sheet[first..first + ROW * counts[s] as usize].chunks(ROW).map(words).enumerate()
    };
    let mut found = Sheet { kinds: vec![], boundaries: vec![], plants: vec![], contracts: vec![] };
    for (i, [kind, a, b, c]) in rows_of(0) {
        if !good_kind(kind) || a != 0 || b != 0 || c != 0 {
            return refuse(3, i);
        }
        found.kinds.push(kind);
    }
    for (i, [who, filler, import, export]) in rows_of(1) {
        let (agent, factor) = halves(who);
        let row = Boundary { agent, factor, import, export };
        if !found.good_boundary(&row) || filler != 0 {
            return refuse(4, i);
        }
        found.boundaries.push(row);
    }
    for (i, [who, must_run, price, availability]) in rows_of(2) {
        let (agent, inflexible) = halves(who);
        let row = Plant { agent, inflexible, must_run, price, availability };
        if !found.good_plant(&row) {
            return refuse(5, i);
        }
        found.plants.push(row);
    }
    for (i, [who, kind, price, quantity]) in rows_of(3) {
        let (seller, buyer) = halves(who);
        let row = Contract { seller, buyer, kind, price, quantity };
        if !found.good_contract(&row) {
            return refuse(6, i);
        }
        found.contracts.push(row);
    }
    Ok(found)
}

pub fn read(sheet: &[u8]) -> Answer<Counts> {
    let s = open(sheet)?;
    Ok(Counts {
        agents: s.kinds.len() as u32,
        boundaries: s.boundaries.len() as u32,
        plants: s.plants.len() as u32,
        contracts: s.contracts.len() as u32,
    })
}

// ---- writing

/// The bytes of a sheet with these fields: refusals 2 to 6.
fn written(agents: &[u32], boundaries: &[u32], plants: &[u32], contracts: &[u32]) -> Answer<Vec<u8>> {
    let lists = [(agents, 1), (boundaries, 4), (plants, 5), (contracts, 5)];
    for (s, (list, fields)) in lists.iter().enumerate() {
        if list.len() % fields != 0 || (list.len() / fields) as u64 > LIMITS[s] {
            return refuse(2, 0);
        }
    }
    let mut s = Sheet { kinds: vec![], boundaries: vec![], plants: vec![], contracts: vec![] };
    let mut bytes: Vec<u8> = vec![];
    let mut put = |words: [u32; 4]| words.iter().for_each(|w| bytes.extend(w.to_le_bytes()));
    for (i, &kind) in agents.iter().enumerate() {
        if !good_kind(kind) {
            return refuse(3, i);
        }
        s.kinds.push(kind);
        put([kind, 0, 0, 0]);
    }
    for (i, f) in boundaries.chunks(4).enumerate() {
        if !s.good_boundary(&Boundary { agent: f[0], factor: f[1], import: f[2], export: f[3] }) {
            return refuse(4, i);
        }
        put([f[0] + 65_536 * f[1], 0, f[2], f[3]]);
    }
    for (i, f) in plants.chunks(5).enumerate() {
        let row = Plant { agent: f[0], inflexible: f[1], must_run: f[2], price: f[3], availability: f[4] };
        if !s.good_plant(&row) {
            return refuse(5, i);
        }
        put([f[0] + 65_536 * f[1], f[2], f[3], f[4]]);
    }
    for (i, f) in contracts.chunks(5).enumerate() {
        let row = Contract { seller: f[0], buyer: f[1], kind: f[2], price: f[3], quantity: f[4] };
        if !s.good_contract(&row) {
            return refuse(6, i);
        }
        put([f[0] + 65_536 * f[1], f[2], f[3], f[4]]);
    }
    let counts = lists.map(|(list, fields)| (list.len() / fields) as u32);
    for s in 0..4 {
        let distance: u32 = 16 * counts[s..].iter().sum::<u32>();
        bytes.extend(distance.to_le_bytes());
        bytes.extend(counts[s].to_le_bytes());
    }
    Ok(bytes)
}

pub fn write(agents: &[u32], boundaries: &[u32], plants: &[u32], contracts: &[u32], out: &mut [u8]) -> Answer<usize> {
    let bytes = written(agents, boundaries, plants, contracts)?;
    if out.len() < bytes.len() {
        return refuse(11, 0);
    }
    out[..bytes.len()].copy_from_slice(&bytes);
    Ok(bytes.len())
}

// ---- the sharing rule

fn shares(amount: u64, weights: &[u64]) -> Vec<u64> {
    let total: u64 = weights.iter().sum();
    if total == 0 {
        return vec![0; weights.len()];
    }
    let exact = |w: u64| amount as u128 * w as u128;
    let mut share: Vec<u64> = weights.iter().map(|&w| (exact(w) / total as u128) as u64).collect();
    let left = amount - share.iter().sum::<u64>();
    let mut order: Vec<usize> = (0..weights.len()).collect();
    // largest remainder first; the sort keeps the lower number first among equals
    order.sort_by_key(|&i| std::cmp::Reverse(exact(weights[i]) % total as u128));
    for &i in order.iter().take(left as usize) {
        share[i] += 1;
    }
    share
}

pub fn share(amount: u32, weights: &[u32], out: &mut [u32]) -> Answer<()> {
    if weights.len() > 256 {
        return refuse(2, 0);
    }
    if out.len() < weights.len() {
        return refuse(11, 0);
    }
    let wide: Vec<u64> = weights.iter().map(|&w| w as u64).collect();
    for (cell, share) in out.iter_mut().zip(shares(amount as u64, &wide)) {
        *cell = share as u32;
    }
    Ok(())
}

// ---- contracts

/// What one retailer's contracts are assigned of its commercial demand; the rows are its own, in the sheet's order.
fn assigned(demand: u64, rows: &[&Contract]) -> Vec<u64> {
    let quantity = |i: usize| rows[i].quantity as u64;
    let mut amounts = vec![0; rows.len()];

    let mut firm: Vec<usize> = (0..rows.len()).filter(|&i| rows[i].kind != 3).collect();
    firm.sort_by_key(|&i| (rows[i].price, rows[i].kind, i));
    let mut ahead = 0;
    for &i in &firm {
        if rows[i].kind == 1 || ahead < demand {
            amounts[i] = quantity(i);
        }
        ahead += quantity(i);
    }

    let mut left = demand.saturating_sub(amounts.iter().sum());
    let mut prices: Vec<u32> = rows.iter().filter(|r| r.kind == 3).map(|r| r.price).collect();
    prices.sort();
    prices.dedup();
    for price in prices {
        let group: Vec<usize> = (0..rows.len()).filter(|&i| rows[i].kind == 3 && rows[i].price == price).collect();
        let weights: Vec<u64> = group.iter().map(|&i| quantity(i)).collect();
        let total: u64 = weights.iter().sum();
        let fits = total <= left;
        let given = if fits { weights } else { shares(left, &weights) };
        for (&i, amount) in group.iter().zip(given) {
            amounts[i] = amount;
        }
        if !fits {
            break;
        }
        left -= total;
    }
    amounts
}

// ---- ideal dispatch

/// Must-run energy first; the rest of the demand then follows the price order up to each availability.
fn dispatched(demand: u64, plants: &[Plant]) -> Vec<u64> {
    let mut schedule: Vec<u64> = plants.iter().map(|p| p.must_run as u64).collect();
    let mut left = demand - schedule.iter().sum::<u64>();
    let mut order: Vec<usize> = (0..plants.len()).collect();
    order.sort_by_key(|&i| (plants[i].price, i));
    for i in order {
        let more = left.min(plants[i].availability as u64 - schedule[i]);
        schedule[i] += more;
        left -= more;
    }
    schedule
}

// ---- the hour

pub struct Line {
    pub share: u64,
    pub own: u64,
    pub import: u64,
    pub contracted: u64,
    pub bought: u64,
    pub sold: u64,
    pub money: i64,
}

pub struct Hour {
    pub kinds: Vec<u32>,
    pub price: u64,
    pub demand: u64,
    pub losses: u64,
    pub lines: Vec<Line>,
    pub schedule: Vec<u64>,
    pub amounts: Vec<u64>,
}

/// Exact ten-thousandths.
fn referred(reading: u32, factor: u32) -> u64 {
    reading as u64 * (10_000 + factor as u64)
}

/// Ten-thousandths as whole kWh, half upwards.
fn rounded(tenths: u64) -> u64 {
    (tenths + 5_000) / 10_000
}

/// Refusals 1 to 10 and 13, or the settled hour.
pub fn hour(sheet: &[u8]) -> Answer<Hour> {
    let s = open(sheet)?;
    let agents = s.kinds.len();
    let retails = |a: usize| s.kinds[a] == RETAILER;

    let sum_over = |a: usize, reading: &dyn Fn(&Boundary) -> u32| -> u64 {
        let own = s.boundaries.iter().filter(|b| b.agent as usize == a);
        own.map(|b| referred(reading(b), b.factor)).sum()
    };
    let imports: Vec<u64> = (0..agents).map(|a| sum_over(a, &|b| b.import)).collect();
    let exports: Vec<u64> = (0..agents).map(|a| sum_over(a, &|b| b.export)).collect();

    if let Some(a) = (0..agents).find(|&a| retails(a) && exports[a] > imports[a]) {
        return refuse(7, a);
    }
    // rounded once for each agent; a generator has no factor, so its readings are whole kWh
    let consumption: Vec<u64> = (0..agents).map(|a| if retails(a) { rounded(imports[a] - exports[a]) } else { 0 }).collect();
    let of_generator = |a: usize, tenths: &[u64]| if retails(a) { 0 } else { tenths[a] / 10_000 };
    let own_import: Vec<u64> = (0..agents).map(|a| of_generator(a, &imports)).collect();
    let delivered: Vec<u64> = (0..agents).map(|a| of_generator(a, &exports)).collect();
    let entering: u64 = delivered.iter().sum();
    let leaving: u64 = consumption.iter().sum::<u64>() + own_import.iter().sum::<u64>();
    if entering < leaving {
        return refuse(8, 0);
    }
    let losses = entering - leaving;
    if losses > 0 && consumption.iter().sum::<u64>() == 0 {
        return refuse(9, 0);
    }
    let loss_shares = shares(losses, &consumption);
    let commercial: Vec<u64> = (0..agents).map(|a| consumption[a] + loss_shares[a]).collect();
    let demand = commercial.iter().sum::<u64>() + own_import.iter().sum::<u64>();
    // the schedule sums to the demand less what small generators export
    let small: u64 = (0..agents).filter(|&a| s.kinds[a] == SMALL).map(|a| delivered[a]).sum();
    let to_schedule = demand - small;
    if s.plants.iter().map(|p| p.availability as u64).sum::<u64>() < to_schedule {
        return refuse(10, 0);
    }
    if s.plants.iter().map(|p| p.must_run as u64).sum::<u64>() > to_schedule {
        return refuse(13, 0);
    }

    let mut amounts = vec![0; s.contracts.len()];
    for a in (0..agents).filter(|&a| retails(a)) {
        let own: Vec<usize> = (0..s.contracts.len()).filter(|&i| s.contracts[i].buyer as usize == a).collect();
        let rows: Vec<&Contract> = own.iter().map(|&i| &s.contracts[i]).collect();
        for (&i, amount) in own.iter().zip(assigned(commercial[a], &rows)) {
            amounts[i] = amount;
        }
    }

    let schedule = dispatched(to_schedule, &s.plants);
    let price = (0..s.plants.len())
        .filter(|&i| s.plants[i].inflexible == 0 && schedule[i] > 0)
        .map(|i| s.plants[i].price as u64)
        .max()
        .unwrap_or(0);

    let line = |a: usize| {
        let own = if retails(a) {
            commercial[a]
        } else if s.kinds[a] == SMALL {
            delivered[a]
        } else {
            (0..s.plants.len()).filter(|&i| s.plants[i].agent as usize == a).map(|i| schedule[i]).sum()
        };
        let party = |c: &Contract| if retails(a) { c.buyer } else { c.seller };
        let contracted: u64 = (0..s.contracts.len()).filter(|&i| party(&s.contracts[i]) as usize == a).map(|i| amounts[i]).sum();
        let (bought, sold) = if retails(a) {
            (own.saturating_sub(contracted), contracted.saturating_sub(own))
        } else {
            (contracted.saturating_sub(own) + own_import[a], own.saturating_sub(contracted))
        };
        let money = (sold as i64 - bought as i64) * price as i64;
        Line { share: loss_shares[a], own, import: own_import[a], contracted, bought, sold, money }
    };
    let lines = (0..agents).map(line).collect();
    Ok(Hour { kinds: s.kinds, price, demand, losses, lines, schedule, amounts })
}

pub fn settle(
    sheet: &[u8],
    figures: &mut [u32],
    money: &mut [i64],
    schedule: &mut [u32],
    amounts: &mut [u32],
) -> Answer<Summary> {
    let h = hour(sheet)?;
    let agents = h.lines.len();
    if figures.len() < 6 * agents || money.len() < agents || schedule.len() < h.schedule.len() || amounts.len() < h.amounts.len()
    {
        return refuse(11, 0);
    }
    for (a, l) in h.lines.iter().enumerate() {
        let six = [l.share, l.own, l.import, l.contracted, l.bought, l.sold];
        for (k, figure) in six.iter().enumerate() {
            figures[6 * a + k] = *figure as u32;
        }
        money[a] = l.money;
    }
    for (i, q) in h.schedule.iter().enumerate() {
        schedule[i] = *q as u32;
    }
    for (i, q) in h.amounts.iter().enumerate() {
        amounts[i] = *q as u32;
    }
    Ok(Summary { price: h.price as u32, demand: h.demand as u32, losses: h.losses as u32 })
}

// ---- the printed page

pub fn printed(sheet: &[u8]) -> String {
    match hour(sheet) {
        Err(r) => format!("refused {} {}\n", r.number, r.place),
        Ok(h) => {
            let mut page = format!("hour {} {} {}\n", h.price, h.demand, h.losses);
            for (a, l) in h.lines.iter().enumerate() {
                page += &format!(
                    "{} {} {} {} {} {} {} {}\n",
                    a, h.kinds[a], l.own, l.import, l.contracted, l.bought, l.sold, l.money
                );
            }
            page
        }
    }
}

pub fn page(sheet: &[u8], out: &mut [u8]) -> Answer<usize> {
    let page = printed(sheet);
    if out.len() < page.len() {
        return refuse(11, 0);
    }
    out[..page.len()].copy_from_slice(page.as_bytes());
    Ok(page.len())
}
