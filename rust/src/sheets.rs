//! Sheets for the tests and the benchmark, made from rows. Nothing here judges a row.

/// The named fields of a sheet's rows, in byte order.
#[derive(Clone, Debug, Default)]
pub struct Rows {
    /// kind
    pub agents: Vec<u32>,
    /// agent, factor, import, export
    pub boundaries: Vec<[u32; 4]>,
    /// agent, inflexible, must-run, price, availability
    pub plants: Vec<[u32; 5]>,
    /// seller, buyer, kind, price, quantity
    pub contracts: Vec<[u32; 5]>,
}

impl Rows {
    /// The sheet with these rows; of fields that have two bytes the lower two.
    pub fn bytes(&self) -> Vec<u8> {
        let mut out = vec![];
        let mut put = |words: [u32; 4]| words.iter().for_each(|w| out.extend(w.to_le_bytes()));
        let pair = |low: u32, high: u32| (low & 0xffff) | high << 16;
        for &kind in &self.agents {
            put([kind, 0, 0, 0]);
        }
        for &[agent, factor, import, export] in &self.boundaries {
            put([pair(agent, factor), 0, import, export]);
        }
        for &[agent, inflexible, must_run, price, availability] in &self.plants {
            put([pair(agent, inflexible), must_run, price, availability]);
        }
        for &[seller, buyer, kind, price, quantity] in &self.contracts {
            put([pair(seller, buyer), kind, price, quantity]);
        }
        let [n0, n1, n2, n3] = self.counts().map(|n| n as u32);
        let back = |n: u32| 16 * n;
        put([back(n0 + n1 + n2 + n3), n0, back(n1 + n2 + n3), n1]);
        put([back(n2 + n3), n2, back(n3), n3]);
        out
    }

    pub fn counts(&self) -> [usize; 4] {
        [self.agents.len(), self.boundaries.len(), self.plants.len(), self.contracts.len()]
    }

    /// One list a section, as writing takes them.
    pub fn lists(&self) -> [Vec<u32>; 4] {
        [self.agents.clone(), self.boundaries.concat(), self.plants.concat(), self.contracts.concat()]
    }
}

/// A small generator of numbers (splitmix64): the same seed gives the same numbers everywhere.
pub struct Random(pub u64);

impl Random {
    pub fn draw(&mut self) -> u64 {
        self.0 = self.0.wrapping_add(0x9e37_79b9_7f4a_7c15);
        let z = (self.0 ^ (self.0 >> 30)).wrapping_mul(0xbf58_476d_1ce4_e5b9);
        let z = (z ^ (z >> 27)).wrapping_mul(0x94d0_49bb_1331_11eb);
        z ^ (z >> 31)
    }

    /// One of 0 to n - 1.
    pub fn below(&mut self, n: u64) -> u64 {
        ((self.draw() as u128 * n as u128) >> 64) as u64
    }

    /// One of low to high.
    pub fn range(&mut self, low: u32, high: u32) -> u32 {
        low + self.below((high - low) as u64 + 1) as u32
    }

    /// True once in n times.
    pub fn once_in(&mut self, n: u64) -> bool {
        self.below(n) == 0
    }

    pub fn pick<T: Copy>(&mut self, of: &[T]) -> T {
        of[self.below(of.len() as u64) as usize]
    }
}

/// 'One hour in full' of document 01.
pub fn worked() -> Rows {
    Rows {
        agents: vec![2, 1, 1, 2],
        boundaries: vec![[0, 0, 0, 600], [3, 0, 10, 410], [1, 0, 500, 0], [2, 1000, 400, 0]],
        plants: vec![[0, 0, 0, 5000, 700], [3, 0, 0, 8000, 500], [0, 1, 0, 9000, 100]],
        contracts: vec![[0, 1, 1, 6000, 400], [3, 1, 3, 7000, 100], [0, 1, 3, 7000, 50], [3, 2, 2, 6500, 500]],
    }
}

/// The worked hour with a plant that must run 60 kWh.
pub fn must_run() -> Rows {
    let mut rows = worked();
    rows.plants[2][2] = 60;
    rows
}

/// The worked hour with a retailer as the seller of contract 2: refused with 6.
pub fn march() -> Rows {
    let mut rows = worked();
    rows.contracts[2][0] = 1;
    rows
}

/// A settled sheet of any size, drawn from a seed. Every fourth agent is a generator; the boundaries and the contracts go round the
/// agents. Retailers import 40,000 to 60,000 a row at factors 0 to 400, and the generators export all that and 2 in 100 more, in equal
/// parts. Plant prices are 8 values and contract prices 4, so that most prices are shared by several rows; every eighth plant is
/// inflexible, with no must-run. The availabilities are 1.5 times the demand in all, and the contracts of a retailer sum to about 1.5
/// times its demand, kinds 1, 2 and 3 in turn, so that the demand falls inside them and a price group is shared.
pub fn market(seed: u64, [agents, boundaries, plants, contracts]: [usize; 4]) -> Rows {
    let mut random = Random(seed);
    let generators: Vec<u32> = (0..agents as u32).filter(|a| a % 4 == 0).collect();
    let retailers: Vec<u32> = (0..agents as u32).filter(|a| a % 4 != 0).collect();
    let kinds = (0..agents).map(|a| if a % 4 == 0 { 2 } else { 1 }).collect();
    let mut rows = Rows { agents: kinds, ..Rows::default() };

    let mut consumed = vec![0u64; agents];
    for j in 0..boundaries {
        let agent = (j % agents) as u32;
        if agent % 4 == 0 {
            rows.boundaries.push([agent, 0, 0, 0]);
        } else {
            let (factor, import) = (random.range(0, 400), random.range(40_000, 60_000));
            consumed[agent as usize] += (import as u64 * (10_000 + factor as u64) + 5_000) / 10_000;
            rows.boundaries.push([agent, factor, import, 0]);
        }
    }
    let demand = consumed.iter().sum::<u64>() * 102 / 100;
    let meters = rows.boundaries.iter().filter(|b| b[0] % 4 == 0).count() as u64;
    let mut left = demand;
    let mut unread = meters;
    for row in rows.boundaries.iter_mut().filter(|b| b[0] % 4 == 0) {
        row[3] = (left / unread) as u32;
        left -= left / unread;
        unread -= 1;
    }

    let each = (demand * 3 / 2 / plants as u64) as u32;
    for i in 0..plants {
        let price = 5_000 + 1_000 * random.range(0, 7);
        let inflexible = (i % 8 == 7) as u32;
        rows.plants.push([generators[i % generators.len()], inflexible, 0, price, random.range(each, each + each / 50)]);
    }

    for i in 0..contracts {
        let buyer = retailers[i % retailers.len()];
        let seller = random.pick(&generators);
        let held = contracts / retailers.len();
        let part = (consumed[buyer as usize] * 3 / 2 / held as u64) as u32;
        let turn = (i / retailers.len() + i) % 3;
        let price = 6_000 + 500 * random.range(0, 3);
        rows.contracts.push([seller, buyer, turn as u32 + 1, price, random.range(part * 3 / 4, part * 5 / 4)]);
    }
    rows
}

const MIDDLING: [usize; 4] = [20, 60, 20, 60];
const LARGEST: [usize; 4] = [64, 256, 64, 256];

/// 20 agents, 60 boundaries, 20 plants and 60 contracts.
pub fn middling() -> Rows {
    market(1995, MIDDLING)
}

/// 64 agents, 256 boundaries, 64 plants and 256 contracts.
pub fn largest() -> Rows {
    market(1995, LARGEST)
}

/// 32 middling sheets that differ in every number but the counts.
pub fn middling_in_turn() -> Vec<Rows> {
    (1..=32).map(|seed| market(seed, MIDDLING)).collect()
}

/// 32 of the largest sheets that differ in every number but the counts.
pub fn largest_in_turn() -> Vec<Rows> {
    (1..=32).map(|seed| market(seed, LARGEST)).collect()
}

/// The same with every price drawn from the whole range, so that hardly any two are equal.
pub fn distinct_in_turn() -> Vec<Rows> {
    let mut random = Random(24);
    let mut sheets = largest_in_turn();
    for rows in &mut sheets {
        let prices = rows.plants.iter_mut().map(|p| &mut p[3]).chain(rows.contracts.iter_mut().map(|c| &mut c[3]));
        prices.for_each(|price| *price = random.range(0, 1_000_000));
    }
    sheets
}

/// What the first retailer's meters say that it takes.
fn first_import(rows: &Rows) -> u32 {
    rows.boundaries.iter().filter(|b| b[0] == 1).map(|b| b[2]).sum()
}

/// The largest sheet with one buyer for all 256 contracts, all of kind 3 at two prices: 128 are in full and 128 share.
pub fn one_buyer() -> Rows {
    let mut rows = largest();
    let each = first_import(&rows) / 192;
    for (i, row) in rows.contracts.iter_mut().enumerate() {
        *row = [row[0], 1, 3, 6_000 + 500 * (i as u32 % 2), each - i as u32 % 7];
    }
    rows
}

/// The largest sheet with one buyer for all 256 contracts, all of kind 3 at one price, about twice the demand: all 256 share.
pub fn one_group() -> Rows {
    let mut random = Random(256);
    let mut rows = largest();
    let each = first_import(&rows) / 128;
    for row in &mut rows.contracts {
        *row = [row[0], 1, 3, 6_000, random.range(each / 2, each * 3 / 2)];
    }
    rows
}

/// The largest sheet with contracts a quarter as large, so that every one is assigned in full.
pub fn all_fit() -> Rows {
    let mut rows = largest();
    rows.contracts.iter_mut().for_each(|c| c[4] /= 4);
    rows
}

/// 64 agents, 256 boundaries and 64 plants.
pub fn no_contracts() -> Rows {
    market(1995, [64, 256, 64, 0])
}

/// The largest sheet with too little available: refused with 10.
pub fn uncovered() -> Rows {
    let mut rows = largest();
    rows.plants.iter_mut().for_each(|p| p[4] /= 2);
    rows
}
