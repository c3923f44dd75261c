//! P6 of document 02 written out plainly, from the papers alone: whether the administrator's statement of an hour could be right. The
//! tests hold the proved library's `check` against it. Orders of equal prices are tried one by one, so it is for sheets in which few
//! are [`tied`].

use crate::answers::Refusal;
use crate::plain::{hour, open, Contract, Hour, Sheet};

/// The administrator's numbers: a price and four lists in the shape of a settlement's.
#[derive(Clone, Copy, Debug)]
pub struct Statement<'a> {
    pub price: u32,
    pub figures: &'a [u32],
    pub money: &'a [i64],
    pub schedule: &'a [u32],
    pub amounts: &'a [u32],
}

/// The six figures of an agent.
const SHARE: usize = 0;
const OWN: usize = 1;
const IMPORT: usize = 2;
const CONTRACTED: usize = 3;
const BOUGHT: usize = 4;
const SOLD: usize = 5;

const RETAILER: u32 = 1;
const SMALL: u32 = 3;

/// The sheet with what it says by itself, and the statement of it.
struct Case<'a> {
    sheet: Sheet,
    /// our own settlement, of which only the readings' part is used: consumptions, imports and losses
    ours: Hour,
    theirs: Statement<'a>,
}

/// Refusals 1 to 10 and 13 of the sheet, 11 for a list too short, then 21 to 25 for the first point that fails.
pub fn check(sheet: &[u8], theirs: Statement) -> Result<(), Refusal> {
    let ours = hour(sheet)?;
    let case = Case { sheet: open(sheet)?, ours, theirs };
    let refuse = |number| Err(Refusal::new(number, 0));
    let agents = case.sheet.kinds.len();
    if theirs.figures.len() < 6 * agents
        || theirs.money.len() < agents
        || theirs.schedule.len() < case.sheet.plants.len()
        || theirs.amounts.len() < case.sheet.contracts.len()
    {
        return refuse(11);
    }
    if !case.shares_follow() {
        return refuse(21);
    }
    if !case.schedule_follows() {
        return refuse(22);
    }
    if !case.price_follows() {
        return refuse(23);
    }
    if !case.amounts_follow() {
        return refuse(24);
    }
    if !case.lines_follow() {
        return refuse(25);
    }
    Ok(())
}

/// The most contracts of kinds 1 and 2 that one retailer has at one price.
pub fn tied(sheet: &Sheet) -> usize {
    let firm: Vec<&Contract> = sheet.contracts.iter().filter(|c| c.kind != 3).collect();
    let level = |c: &Contract| firm.iter().filter(|k| k.buyer == c.buyer && k.price == c.price).count();
    firm.iter().map(|c| level(c)).max().unwrap_or(0)
}

/// Less than 1 kWh from amount × weight ÷ total.
fn near(given: i128, amount: i128, weight: i128, total: i128) -> bool {
    (given * total - amount * weight).abs() < total
}

impl Case<'_> {
    fn agents(&self) -> std::ops::Range<usize> {
        0..self.sheet.kinds.len()
    }

    fn retails(&self, a: usize) -> bool {
        self.sheet.kinds[a] == RETAILER
    }

    fn figure(&self, a: usize, k: usize) -> i128 {
        self.theirs.figures[6 * a + k] as i128
    }

    fn scheduled(&self, i: usize) -> i128 {
        self.theirs.schedule[i] as i128
    }

    fn amount(&self, i: usize) -> i128 {
        self.theirs.amounts[i] as i128
    }

    /// What the readings alone say of a retailer.
    fn consumption(&self, a: usize) -> i128 {
        let line = &self.ours.lines[a];
        if self.retails(a) {
            line.own as i128 - line.share as i128
        } else {
            0
        }
    }

    /// A generator's own consumption, which the readings alone say too.
    fn import(&self, a: usize) -> i128 {
        self.ours.lines[a].import as i128
    }

    /// A retailer's commercial demand with their share of the losses.
    fn demand(&self, a: usize) -> i128 {
        self.consumption(a) + self.figure(a, SHARE)
    }

    /// 21: the shares sum to the losses and each is less than 1 kWh from the exact proportion; 0 for generators, all 0 where total
    /// consumption is 0.
    fn shares_follow(&self) -> bool {
        let losses = self.ours.losses as i128;
        let total: i128 = self.agents().map(|a| self.consumption(a)).sum();
        let follows = |a: usize| {
            let share = self.figure(a, SHARE);
            if self.retails(a) && total > 0 {
                near(share, losses, self.consumption(a), total)
            } else {
                share == 0
            }
        };
        self.agents().map(|a| self.figure(a, SHARE)).sum::<i128>() == losses && self.agents().all(follows)
    }

    /// 22: the schedule is possible, and no plant above its must-run is dearer than another with energy left.
    fn schedule_follows(&self) -> bool {
        let plants = &self.sheet.plants;
        let demands = self.agents().filter(|&a| self.retails(a)).map(|a| self.demand(a));
        let demand = demands.sum::<i128>() + self.agents().map(|a| self.import(a)).sum::<i128>();
        // what small generators export needs no schedule
        let demand = demand - self.agents().map(|a| self.injected(a)).sum::<i128>();
        let within = |i: usize| (plants[i].must_run as i128..=plants[i].availability as i128).contains(&self.scheduled(i));
        let possible = (0..plants.len()).map(|i| self.scheduled(i)).sum::<i128>() == demand && (0..plants.len()).all(within);
        let above_must_run = |i: usize| self.scheduled(i) > plants[i].must_run as i128;
        let has_left = |k: usize| self.scheduled(k) < plants[k].availability as i128;
        let wasteful = |i: usize, k: usize| above_must_run(i) && has_left(k) && plants[i].price > plants[k].price;
        possible && !(0..plants.len()).any(|i| (0..plants.len()).any(|k| wasteful(i, k)))
    }

    /// 23: the price is the highest flexible offer scheduled in it.
    fn price_follows(&self) -> bool {
        let plants = &self.sheet.plants;
        let setting = (0..plants.len()).filter(|&i| plants[i].inflexible == 0 && self.scheduled(i) > 0);
        self.theirs.price == setting.map(|i| plants[i].price).max().unwrap_or(0)
    }

    /// 24: each retailer's contract amounts follow document 01 on its demand with their share.
    fn amounts_follow(&self) -> bool {
        self.agents().filter(|&a| self.retails(a)).all(|a| {
            let own: Vec<usize> =
                (0..self.sheet.contracts.len()).filter(|&i| self.sheet.contracts[i].buyer as usize == a).collect();
            let rows: Vec<Row> = own.iter().map(|&i| Row::new(&self.sheet.contracts[i], self.amount(i))).collect();
            follow(self.demand(a), &rows)
        })
    }

    /// 25: the lines follow from shares, schedule, amounts and price. A generator's own import is added to what it buys.
    fn lines_follow(&self) -> bool {
        self.agents().all(|a| {
            let own = if self.retails(a) { self.demand(a) } else { self.made_by(a) + self.injected(a) };
            let contracted = self.contracted_by(a);
            let (lacks, exceeds) = ((own - contracted).max(0), (contracted - own).max(0));
            let (bought, sold) = if self.retails(a) { (lacks, exceeds) } else { (exceeds + self.import(a), lacks) };
            let money = (sold - bought) * self.theirs.price as i128;
            self.figure(a, OWN) == own
                && self.figure(a, IMPORT) == self.import(a)
                && self.figure(a, CONTRACTED) == contracted
                && self.figure(a, BOUGHT) == bought
                && self.figure(a, SOLD) == sold
                && self.theirs.money[a] as i128 == money
        })
    }

    /// What a small generator exports: its own energy, since it has no plants.
    fn injected(&self, a: usize) -> i128 {
        let own = self.sheet.boundaries.iter().filter(|b| b.agent as usize == a && self.sheet.kinds[a] == SMALL);
        own.map(|b| b.export as i128).sum()
    }

    fn made_by(&self, a: usize) -> i128 {
        let own = (0..self.sheet.plants.len()).filter(|&i| self.sheet.plants[i].agent as usize == a);
        own.map(|i| self.scheduled(i)).sum()
    }

    fn contracted_by(&self, a: usize) -> i128 {
        let party = |c: &Contract| if self.retails(a) { c.buyer } else { c.seller };
        let own = (0..self.sheet.contracts.len()).filter(|&i| party(&self.sheet.contracts[i]) as usize == a);
        own.map(|i| self.amount(i)).sum()
    }
}

// ---- the contracts of one retailer

/// A contract with the amount that they state.
#[derive(Clone, Copy)]
struct Row {
    kind: u32,
    price: u32,
    quantity: i128,
    amount: i128,
}

impl Row {
    fn new(c: &Contract, amount: i128) -> Row {
        Row { kind: c.kind, price: c.price, quantity: c.quantity as i128, amount }
    }
}

/// The rows at each price, by rising price.
fn by_price(rows: &[Row]) -> Vec<Vec<Row>> {
    let mut prices: Vec<u32> = rows.iter().map(|r| r.price).collect();
    prices.sort();
    prices.dedup();
    prices.iter().map(|&price| rows.iter().copied().filter(|r| r.price == price).collect()).collect()
}

fn quantities(rows: &[Row]) -> i128 {
    rows.iter().map(|r| r.quantity).sum()
}

fn amounts(rows: &[Row]) -> i128 {
    rows.iter().map(|r| r.amount).sum()
}

fn follow(demand: i128, rows: &[Row]) -> bool {
    let firm: Vec<Row> = rows.iter().copied().filter(|r| r.kind != 3).collect();
    let demanded: Vec<Row> = rows.iter().copied().filter(|r| r.kind == 3).collect();
    // the same rows stand ahead of a price in whatever order, so each price has an order of its own
    let mut ahead = 0;
    for mut level in by_price(&firm) {
        let sum = quantities(&level);
        if !some_order(demand, ahead, &mut level) {
            return false;
        }
        ahead += sum;
    }
    let mut left = (demand - amounts(&firm)).max(0);
    let mut shared = false;
    for group in by_price(&demanded) {
        let total = quantities(&group);
        if shared {
            if group.iter().any(|r| r.amount != 0) {
                return false;
            }
        } else if total <= left {
            if group.iter().any(|r| r.amount != r.quantity) {
                return false;
            }
            left -= total;
        } else {
            if amounts(&group) != left || !group.iter().all(|r| near(r.amount, left, r.quantity, total)) {
                return false;
            }
            shared = true;
        }
    }
    true
}

/// True if the rows can stand one behind another so that each has what the rule gives it there: each is tried as the next one.
fn some_order(demand: i128, ahead: i128, rows: &mut Vec<Row>) -> bool {
    if rows.is_empty() {
        return true;
    }
    for next in 0..rows.len() {
        let row = rows.remove(next);
        let given = if row.kind == 1 || ahead < demand { row.quantity } else { 0 };
        let found = row.amount == given && some_order(demand, ahead + row.quantity, rows);
        rows.insert(next, row);
        if found {
            return true;
        }
    }
    false
}
