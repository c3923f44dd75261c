//! Checking random statements: the library against `statement`. An administrator with ties and roundings of its own makes them; some
//! are then damaged, before the lines are written or after.
mod common;
use common::{hour, length_near, sheet};
use naomhral::plain::{self, Contract};
use naomhral::sheets::{Random, Rows};
use naomhral::statement::{check, tied, Statement};
use naomhral::Refusal;
use std::collections::HashMap;

/// What an administrator decides; the lines follow from it.
#[derive(Clone, Debug)]
struct Draft {
    price: u32,
    shares: Vec<u64>,
    schedule: Vec<u64>,
    amounts: Vec<u64>,
}

#[derive(Clone, Debug, PartialEq)]
struct Stated {
    price: u32,
    figures: Vec<u32>,
    money: Vec<i64>,
    schedule: Vec<u32>,
    amounts: Vec<u32>,
}

impl Stated {
    fn lent(&self) -> Statement<'_> {
        let Stated { price, figures, money, schedule, amounts } = self;
        Statement { price: *price, figures, money, schedule, amounts }
    }
}

/// A sheet that settles: its rows, and our settlement of it.
struct Settled {
    rows: plain::Sheet,
    ours: plain::Hour,
}

impl Settled {
    fn of(sheet: &[u8]) -> Option<Settled> {
        Some(Settled { rows: plain::open(sheet).ok()?, ours: plain::hour(sheet).ok()? })
    }

    fn retails(&self, a: usize) -> bool {
        self.rows.kinds[a] == 1
    }

    /// What a small generator exports, 0 for others.
    fn injected(&self, a: usize) -> u64 {
        let own = self.rows.boundaries.iter().filter(|b| b.agent as usize == a && self.rows.kinds[a] == 3);
        own.map(|b| b.export as u64).sum()
    }

    fn consumptions(&self) -> Vec<u64> {
        let agents = self.ours.lines.iter().enumerate();
        agents.map(|(a, line)| if self.retails(a) { line.own - line.share } else { 0 }).collect()
    }

    fn our_draft(&self) -> Draft {
        Draft {
            price: self.ours.price as u32,
            shares: self.ours.lines.iter().map(|l| l.share).collect(),
            schedule: self.ours.schedule.clone(),
            amounts: self.ours.amounts.clone(),
        }
    }

    /// A statement that could be right, under ties and roundings that are drawn.
    fn their_draft(&self, random: &mut Random) -> Draft {
        let consumptions = self.consumptions();
        let shares = rounded(random, self.ours.losses, &consumptions);
        let schedule = self.dispatched(random);
        let mut amounts = vec![0; self.rows.contracts.len()];
        for a in (0..self.rows.kinds.len()).filter(|&a| self.retails(a)) {
            self.assign(random, a as u32, consumptions[a] + shares[a], &mut amounts);
        }
        let price = self.price_of(&schedule);
        Draft { price, shares, schedule, amounts }
    }

    /// Must-runs, then price by price; at one price each plant has any part.
    fn dispatched(&self, random: &mut Random) -> Vec<u64> {
        let plants = &self.rows.plants;
        let mut schedule: Vec<u64> = plants.iter().map(|p| p.must_run as u64).collect();
        let small: u64 = (0..self.rows.kinds.len()).map(|a| self.injected(a)).sum();
        let mut left = self.ours.demand - small - schedule.iter().sum::<u64>();
        let mut order: Vec<usize> = (0..plants.len()).collect();
        shuffle(random, &mut order);
        order.sort_by_key(|&i| plants[i].price);
        for group in order.chunk_by(|&i, &k| plants[i].price == plants[k].price) {
            let room: u64 = group.iter().map(|&i| plants[i].availability as u64 - schedule[i]).sum();
            let mut given = left.min(room);
            left -= given;
            for whole in [false, true] {
                for &i in group {
                    let most = given.min(plants[i].availability as u64 - schedule[i]);
                    let more = if whole { most } else { random.below(most + 1) };
                    schedule[i] += more;
                    given -= more;
                }
            }
        }
        schedule
    }

    fn price_of(&self, schedule: &[u64]) -> u32 {
        let setting = self.rows.plants.iter().zip(schedule).filter(|(p, &q)| p.inflexible == 0 && q > 0);
        setting.map(|(p, _)| p.price).max().unwrap_or(0)
    }

    fn assign(&self, random: &mut Random, buyer: u32, demand: u64, amounts: &mut [u64]) {
        let rows = &self.rows.contracts;
        let mut own: Vec<usize> = (0..rows.len()).filter(|&i| rows[i].buyer == buyer).collect();
        shuffle(random, &mut own);
        own.sort_by_key(|&i| rows[i].price);
        let (demanded, firm): (Vec<usize>, Vec<usize>) = own.into_iter().partition(|&i| rows[i].kind == 3);
        let mut ahead = 0;
        for &i in &firm {
            amounts[i] = if rows[i].kind == 1 || ahead < demand { rows[i].quantity as u64 } else { 0 };
            ahead += rows[i].quantity as u64;
        }
        let mut left = demand.saturating_sub(firm.iter().map(|&i| amounts[i]).sum());
        for group in demanded.chunk_by(|&i, &k| rows[i].price == rows[k].price) {
            let weights: Vec<u64> = group.iter().map(|&i| rows[i].quantity as u64).collect();
            let total: u64 = weights.iter().sum();
            let given = if total <= left { weights } else { rounded(random, left, &weights) };
            group.iter().zip(given).for_each(|(&i, amount)| amounts[i] = amount);
            if total > left {
                break;
            }
            left -= total;
        }
    }

    /// The statement with the lines that follow from a draft.
    fn stated(&self, draft: &Draft) -> Stated {
        let consumptions = self.consumptions();
        let (mut figures, mut money) = (vec![], vec![]);
        for (a, line) in self.ours.lines.iter().enumerate() {
            let sum = |part: &dyn Fn(&Contract) -> u32| -> u64 {
                let own = self.rows.contracts.iter().zip(&draft.amounts).filter(|(c, _)| part(c) as usize == a);
                own.map(|(_, &amount)| amount).sum()
            };
            let made = self.rows.plants.iter().zip(&draft.schedule).filter(|(p, _)| p.agent as usize == a);
            let (own, contracted) = match self.retails(a) {
                true => (consumptions[a] + draft.shares[a], sum(&|c| c.buyer)),
                false => (made.map(|(_, &q)| q).sum::<u64>() + self.injected(a), sum(&|c| c.seller)),
            };
            let (less, more) = (contracted.saturating_sub(own), own.saturating_sub(contracted));
            let (bought, sold) = if self.retails(a) { (more, less) } else { (less + line.import, more) };
            figures.extend([draft.shares[a], own, line.import, contracted, bought, sold].map(|figure| figure as u32));
            money.push((sold as i64 - bought as i64) * draft.price as i64);
        }
        let narrow = |list: &[u64]| list.iter().map(|&cell| cell as u32).collect();
        Stated { price: draft.price, figures, money, schedule: narrow(&draft.schedule), amounts: narrow(&draft.amounts) }
    }
}

fn shuffle<T>(random: &mut Random, list: &mut [T]) {
    for i in (1..list.len()).rev() {
        list.swap(i, random.below(i as u64 + 1) as usize);
    }
}

/// Each share rounded down or up, at random, so that they sum to the amount.
fn rounded(random: &mut Random, amount: u64, weights: &[u64]) -> Vec<u64> {
    let total: u64 = weights.iter().sum();
    if total == 0 {
        return vec![0; weights.len()];
    }
    let exact = |w: u64| amount as u128 * w as u128;
    let mut shares: Vec<u64> = weights.iter().map(|&w| (exact(w) / total as u128) as u64).collect();
    let mut cut: Vec<usize> = (0..weights.len()).filter(|&i| exact(weights[i]) % total as u128 != 0).collect();
    shuffle(random, &mut cut);
    let left = amount - shares.iter().sum::<u64>();
    cut.iter().take(left as usize).for_each(|&i| shares[i] += 1);
    shares
}

/// At most so many rows of kinds 1 and 2 have one buyer and one price, since their orders are tried one by one.
const TIED_MOST: usize = 6;

/// Raises prices of contracts until no more than a few are equal.
fn untie(rows: &mut Rows) {
    let mut count: HashMap<(u32, u32), usize> = HashMap::new();
    for [_, buyer, _, price, _] in &mut rows.contracts {
        while count.get(&(*buyer, *price)).is_some_and(|&n| n >= TIED_MOST) {
            *price = (*price + 1) % (common::PRICE + 1);
        }
        *count.entry((*buyer, *price)).or_insert(0) += 1;
    }
}

/// Mostly a sheet that settles.
fn any_sheet(random: &mut Random) -> Vec<u8> {
    loop {
        let bytes = if random.once_in(4) {
            sheet(random)
        } else {
            let mut rows = hour(random);
            untie(&mut rows);
            rows.bytes()
        };
        if !plain::open(&bytes).is_ok_and(|s| tied(&s) > TIED_MOST) {
            return bytes;
        }
    }
}

// ---- damage

/// Another number instead of one: mostly near.
fn other(random: &mut Random, number: u64) -> u64 {
    let any = random.below(1 << 32);
    random.pick(&[number + 1, number.saturating_sub(1), number + 1, number.saturating_sub(1), number + 2, 0, 1, number / 2, any])
}

/// A part of one cell, mostly 1 kWh or all, goes to another.
fn shift(random: &mut Random, list: &mut [u64]) {
    if list.len() < 2 {
        return;
    }
    let (from, to) = (random.below(list.len() as u64) as usize, random.below(list.len() as u64) as usize);
    let some = random.below(list[from] + 1);
    let part = random.pick(&[1, 1, list[from], some]).min(list[from]);
    list[from] -= part;
    list[to] += part;
}

fn alter(random: &mut Random, list: &mut [u64]) {
    if !list.is_empty() {
        let i = random.below(list.len() as u64) as usize;
        list[i] = other(random, list[i]);
    }
}

/// One decision that may be wrong; the lines follow from it.
fn misjudge(random: &mut Random, s: &Settled, draft: &mut Draft) {
    let contracts = &s.rows.contracts;
    match random.below(9) {
        0 => shift(random, &mut draft.shares),
        1 => alter(random, &mut draft.shares),
        2 => shift(random, &mut draft.schedule),
        3 => alter(random, &mut draft.schedule),
        4 => {
            let offers: Vec<u32> = s.rows.plants.iter().map(|p| p.price).chain([draft.price + 1, 0]).collect();
            draft.price = random.pick(&offers);
        }
        5 => shift(random, &mut draft.amounts),
        6 => alter(random, &mut draft.amounts),
        // a contract given all or nothing where it had the other, or cut
        7 if !contracts.is_empty() => {
            let i = random.below(contracts.len() as u64) as usize;
            let quantity = contracts[i].quantity as u64;
            let cut = random.below(quantity + 1);
            draft.amounts[i] = if random.once_in(3) { cut } else { quantity - draft.amounts[i].min(quantity) };
        }
        // two contracts of one buyer change places
        8 if !contracts.is_empty() => {
            let i = random.below(contracts.len() as u64) as usize;
            let of_buyer: Vec<usize> = (0..contracts.len()).filter(|&k| contracts[k].buyer == contracts[i].buyer).collect();
            draft.amounts.swap(i, random.pick(&of_buyer));
        }
        _ => {}
    }
    // the price mostly follows the schedule
    if !random.once_in(4) {
        draft.price = s.price_of(&draft.schedule);
    }
}

/// One cell, or two that belong together, after the lines were written.
fn misprint(random: &mut Random, stated: &mut Stated) {
    let agents = stated.money.len();
    let cell = |random: &mut Random, list: &mut [u32]| {
        if !list.is_empty() {
            let i = random.below(list.len() as u64) as usize;
            list[i] = other(random, list[i] as u64) as u32;
        }
    };
    match random.below(7) {
        0 => stated.price = other(random, stated.price as u64) as u32,
        1 | 2 => cell(random, &mut stated.figures),
        3 => cell(random, &mut stated.schedule),
        4 => cell(random, &mut stated.amounts),
        5 if agents > 0 => {
            let a = random.below(agents as u64) as usize;
            let any = random.draw() as i64;
            let money = stated.money[a];
            stated.money[a] = random.pick(&[money + 1, money - 1, -money, 0, any, i64::MIN, i64::MAX]);
        }
        // bought and sold both less or more: an import netted from what was sold, money as it was
        6 if agents > 0 => {
            let a = random.below(agents as u64) as usize;
            let (bought, sold) = (stated.figures[6 * a + 4], stated.figures[6 * a + 5]);
            let less = bought.min(sold);
            let by = random.pick(&[less, 1.min(less), 1u32.wrapping_neg()]);
            stated.figures[6 * a + 4] = bought.wrapping_sub(by);
            stated.figures[6 * a + 5] = sold.wrapping_sub(by);
        }
        _ => {}
    }
}

/// Lists longer than needed, with anything in the cells behind, or once in a while too short.
fn resize(random: &mut Random, stated: &mut Stated) {
    let any = random.draw() as u32;
    for list in [&mut stated.figures, &mut stated.schedule, &mut stated.amounts] {
        let length = length_near(random, list.len(), 60);
        list.resize(length, any);
    }
    let length = length_near(random, stated.money.len(), 60);
    stated.money.resize(length, any as i64);
}

/// Numbers for a sheet that does not settle.
fn guessed(random: &mut Random) -> Stated {
    let n = random.below(8) as usize;
    let list = |n: usize| vec![0; n];
    Stated { price: 0, figures: list(6 * n), money: vec![0; n], schedule: list(n), amounts: list(n) }
}

// ---- the comparison

fn told(answer: Result<(), Refusal>) -> (u32, u32) {
    answer.map_or_else(|r| (r.number, r.place), |()| (0, 0))
}

/// What both say, which must be one.
fn both(sheet: &[u8], stated: &Stated, where_from: &dyn Fn() -> String) -> u32 {
    let Statement { price, figures, money, schedule, amounts } = stated.lent();
    let (given, expected) = (naomhral::check(sheet, price, figures, money, schedule, amounts), check(sheet, stated.lent()));
    assert_eq!(told(given), told(expected), "{}", where_from());
    told(given).0
}

/// What the statements have to reach.
#[derive(Default, Debug)]
struct Seen {
    numbers: [usize; 26],
    other_shares: usize,
    other_schedule: usize,
    other_conditional: usize,
    other_demanded: usize,
    other_order_first: usize,
}

impl Seen {
    /// Statements that are accepted though they differ from ours.
    fn note(&mut self, s: &Settled, stated: &Stated) {
        let is = |holds: bool| holds as usize;
        let ours = s.stated(&s.our_draft());
        let differs = |kinds: &[u32]| {
            let amounts = ours.amounts.iter().zip(&stated.amounts).zip(&s.rows.contracts);
            amounts.filter(|(_, c)| kinds.contains(&c.kind)).any(|((a, b), _)| a != b)
        };
        let shares = |stated: &Stated| (0..s.rows.kinds.len()).map(|a| stated.figures[6 * a]).collect::<Vec<u32>>();
        self.other_shares += is(shares(&ours) != shares(stated));
        self.other_schedule += is(ours.schedule[..] != stated.schedule[..ours.schedule.len()]);
        self.other_conditional += is(differs(&[2]));
        self.other_demanded += is(differs(&[3]));
        // a kind 1 contract of the same buyer and price, where the difference is in kind 2: it stands behind there
        let fixed = |buyer: u32, price: u32| s.rows.contracts.iter().any(|c| (c.kind, c.buyer, c.price) == (1, buyer, price));
        let moved = (0..ours.amounts.len()).any(|i| {
            let c = &s.rows.contracts[i];
            c.kind == 2 && ours.amounts[i] != stated.amounts[i] && fixed(c.buyer, c.price)
        });
        self.other_order_first += is(moved);
    }

    fn check(&self) {
        eprintln!("{self:?}");
        for number in (0..=11).chain([13]).chain(21..=25) {
            let times = self.numbers[number];
            assert!(times >= count() / 10_000, "answer {number} was given {times} times");
        }
        let features =
            [self.other_shares, self.other_schedule, self.other_conditional, self.other_demanded, self.other_order_first];
        assert!(features.iter().all(|&f| f >= count() / 1_000), "a case is too rare: {features:?}");
    }
}

/// The count of statements in a test: `NAOMHRAL_STATEMENTS` sets another.
fn count() -> usize {
    std::env::var("NAOMHRAL_STATEMENTS").map_or(100_000, |word| word.parse().expect("the number of statements"))
}

/// A statement of a sheet that settles, with up to four faults.
fn drawn(random: &mut Random, s: &Settled) -> Stated {
    let mut draft = if random.once_in(4) { s.our_draft() } else { s.their_draft(random) };
    for _ in 0..random.pick(&[0, 0, 0, 1, 1, 1, 1, 2]) {
        misjudge(random, s, &mut draft);
    }
    let mut stated = s.stated(&draft);
    for _ in 0..random.pick(&[0, 0, 0, 0, 0, 1, 1, 2]) {
        misprint(random, &mut stated);
    }
    stated
}

fn check_all(seed: u64) {
    let mut random = Random(seed);
    let mut seen = Seen::default();
    let mut n = 0;
    while n < count() {
        let sheet = any_sheet(&mut random);
        let settled = Settled::of(&sheet);
        for _ in 0..if settled.is_some() { 4 } else { 1 } {
            let mut stated = match &settled {
                Some(s) => drawn(&mut random, s),
                None => guessed(&mut random),
            };
            resize(&mut random, &mut stated);
            let number = both(&sheet, &stated, &|| format!("seed {seed}, statement {n}"));
            seen.numbers[number as usize] += 1;
            if let (Some(s), 0) = (&settled, number) {
                seen.note(s, &stated);
            }
            n += 1;
        }
    }
    seen.check();
}

#[test]
fn checking_as_statement_does() {
    check_all(1);
}

#[test]
fn checking_as_statement_does_again() {
    check_all(2);
}

/// All statements under other ties and roundings are accepted, by both.
#[test]
fn other_ties_and_roundings() {
    let mut random = Random(3);
    let mut accepted = 0;
    while accepted < count() / 5 {
        let sheet = any_sheet(&mut random);
        let Some(s) = Settled::of(&sheet) else { continue };
        for draft in [s.our_draft(), s.their_draft(&mut random), s.their_draft(&mut random)] {
            assert_eq!(both(&sheet, &s.stated(&draft), &|| format!("statement {accepted}")), 0, "statement {accepted}");
            accepted += 1;
        }
    }
}

/// The largest numbers: every value at an end of its range, and statements with cells up to the type's.
#[test]
fn extremes() {
    let mut random = Random(4);
    let mut settled = 0;
    for n in 0..count() / 50 {
        let mut rows = common::extreme(&mut random);
        untie(&mut rows);
        let sheet = rows.bytes();
        let Some(s) = Settled::of(&sheet) else { continue };
        settled += 1;
        let mut stated = s.stated(&s.their_draft(&mut random));
        assert_eq!(both(&sheet, &stated, &|| format!("sheet {n}")), 0);
        for cells in 0..4 {
            let list = match cells {
                0 => &mut stated.figures,
                1 => &mut stated.schedule,
                _ => &mut stated.amounts,
            };
            let i = random.below(list.len() as u64) as usize;
            let old = std::mem::replace(&mut list[i], random.pick(&[u32::MAX, u32::MAX - 1, 1 << 31]));
            assert_ne!(both(&sheet, &stated, &|| format!("sheet {n}")), 0);
            if random.once_in(2) {
                match cells {
                    0 => stated.figures[i] = old,
                    1 => stated.schedule[i] = old,
                    _ => stated.amounts[i] = old,
                }
            }
        }
    }
    assert!(settled * 10 > count() / 50);
}

/// Every list of cells from 0 to the most of each.
fn every(most: &[u64], mut visit: impl FnMut(&[u64])) {
    let mut cells = vec![0; most.len()];
    loop {
        visit(&cells);
        let Some(i) = (0..cells.len()).find(|&i| cells[i] < most[i]) else { return };
        cells[i] += 1;
        cells[..i].fill(0);
    }
}

/// Two retailers that take a few kWh, three plants, and up to four contracts, most of them of one buyer at one price.
fn tiny(random: &mut Random) -> Rows {
    let demand = random.range(0, 5);
    let losses = if demand == 0 { 0 } else { random.range(0, 4) };
    let second = random.range(0, 3).min(demand);
    let made = demand + losses;
    // now and then agent 3 is a small generator, which makes some of it
    let small = random.once_in(4);
    let injected = if small { random.range(0, made) } else { 0 };
    let mut rows = Rows { agents: vec![2, 1, 1, if small { 3 } else { 2 }], ..Rows::default() };
    rows.boundaries = vec![[0, 0, 0, made - injected], [1, 0, demand - second, 0], [2, 0, second, 0], [3, 0, 0, injected]];
    let mut room = 0;
    for i in 0..3 {
        let available = if i == 2 { made - made.min(room) + random.range(0, 2) } else { random.range(0, 4) };
        let inflexible = random.range(0, 1);
        let must_run = if random.once_in(2) { inflexible * random.range(0, available) } else { 0 };
        rows.plants.push([if small { 0 } else { 3 * random.range(0, 1) }, inflexible, must_run, random.range(7, 8), available]);
        room += available;
    }
    for _ in 0..random.range(0, 4) {
        let (seller, kind, small, any) =
            (3 * random.range(0, 1), random.range(1, 3), random.range(0, 3), random.range(0, made + 1));
        let (buyer, price, quantity) = (random.pick(&[1, 1, 1, 2]), random.pick(&[5, 5, 6]), random.pick(&[small, any]));
        rows.contracts.push([seller, buyer, kind, price, quantity]);
    }
    rows
}

/// Of tiny sheets every list of shares, every schedule, or every list of amounts, up to one more than could be right.
#[test]
fn every_small_statement() {
    let mut random = Random(5);
    let (mut tried, mut accepted) = (0, 0);
    while tried < 4 * count() {
        let rows = tiny(&mut random);
        let sheet = rows.bytes();
        let Some(s) = Settled::of(&sheet) else { continue };
        let mut draft = s.their_draft(&mut random);
        let mut visit = |draft: &Draft| {
            tried += 1;
            accepted += (both(&sheet, &s.stated(draft), &|| format!("{rows:?} {draft:?}")) == 0) as usize;
        };
        match random.below(4) {
            0 => every(&[1, s.ours.losses + 1, s.ours.losses + 1, 1], |shares| {
                draft.shares = shares.to_vec();
                visit(&draft);
            }),
            1 => every(&rows.plants.iter().map(|p| p[4] as u64 + 1).collect::<Vec<u64>>(), |schedule| {
                draft.schedule = schedule.to_vec();
                draft.price = s.price_of(schedule);
                visit(&draft);
            }),
            _ => every(&rows.contracts.iter().map(|c| c[4] as u64 + 1).collect::<Vec<u64>>(), |amounts| {
                draft.amounts = amounts.to_vec();
                visit(&draft);
            }),
        }
    }
    eprintln!("{tried} tried, {accepted} accepted");
    assert!(accepted * 100 > tried);
}
