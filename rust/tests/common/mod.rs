//! Random sheets: whole hours that settle, and hours damaged in one or two places.
#![allow(dead_code)]
use naomhral::sheets::{Random, Rows};

pub const ENERGY: u32 = 4_000_000;
pub const PRICE: u32 = 1_000_000;

/// Counts of a sheet: mostly few rows, at times up to the limits or at them.
fn sizes(random: &mut Random) -> [usize; 4] {
    let most: [u32; 4] = match random.below(100) {
        0..=59 => [5, 7, 4, 7],
        60..=92 => [12, 30, 12, 30],
        93..=97 => [64, 256, 64, 256],
        _ => return [64, 256, 64, 256],
    };
    most.map(|n| random.range(0, n) as usize)
}

fn referred(reading: u32, factor: u32) -> u64 {
    reading as u64 * (10_000 + factor as u64)
}

/// Cuts an amount into parts of at most `most` each; hands back what did not fit.
fn spread(random: &mut Random, amount: u64, most: u64, parts: &mut [u64]) -> u64 {
    let mut left = amount;
    let count = parts.len() as u64;
    for (i, part) in parts.iter_mut().enumerate() {
        let behind = count - i as u64 - 1;
        let even = left.div_ceil(behind + 1);
        let wish = if behind == 0 { left } else { random.below(2 * even + 1) };
        // what the later parts cannot hold stays here
        *part = wish.max(left.saturating_sub(behind * most)).min(most).min(left);
        left -= *part;
    }
    left
}

/// Prices of a few values, so that many are equal, or of any.
fn prices(random: &mut Random) -> Vec<u32> {
    match random.below(6) {
        0 => vec![random.range(0, PRICE)],
        1 => vec![0, PRICE],
        2 => vec![7, 8],
        3 | 4 => vec![10, 20, 30, 40],
        _ => (0..40).map(|_| random.range(0, PRICE)).collect(),
    }
}

/// The rows of an hour that mostly settles.
pub fn hour(random: &mut Random) -> Rows {
    let [agents, boundaries, plants, contracts] = sizes(random);
    let scale = random.pick(&[2, 10, 100, 5_000, 300_000, ENERGY]);
    let mut rows = Rows::default();
    let generators_in = random.range(2, 5) as u64;
    for _ in 0..agents {
        rows.agents.push(if random.once_in(generators_in) { 2 } else { 1 });
    }
    if agents >= 2 && !random.once_in(20) {
        let first = random.below(agents as u64) as usize;
        rows.agents[first] = 2;
        rows.agents[(first + 1) % agents] = 1;
    }
    let of_kind = |rows: &Rows, kind: u32| -> Vec<u32> {
        (0..agents as u32).filter(|&a| rows.agents[a as usize] == kind).collect()
    };
    let (retailers, generators) = (of_kind(&rows, 1), of_kind(&rows, 2));
    // in every third hour some are small: they have no plants
    if random.once_in(3) {
        for &g in generators.iter().skip(1).filter(|_| random.once_in(2)) {
            rows.agents[g as usize] = 3;
        }
    }
    let holders = of_kind(&rows, 2);
    let consumed = readings(random, &mut rows, boundaries, scale, &generators);
    if !generators.is_empty() {
        offers(random, &mut rows, plants, &holders);
        if !retailers.is_empty() {
            deals(random, &mut rows, contracts, scale, &retailers, &generators, &consumed);
        }
    }
    rows
}

/// The boundary rows; hands back each agent's consumption.
fn readings(random: &mut Random, rows: &mut Rows, count: usize, scale: u32, generators: &[u32]) -> Vec<u64> {
    let agents = rows.agents.len();
    let mut imports = vec![0; agents];
    let mut exports = vec![0; agents];
    if agents == 0 {
        return imports;
    }
    let exporting = random.once_in(3);
    for j in 0..count {
        // the first row is a generator's, so that there is a meter for what enters
        let wanted = if j == 0 && !generators.is_empty() { random.pick(generators) } else { random.below(agents as u64) as u32 };
        let a = wanted as usize;
        let import = if random.once_in(5) { 0 } else { random.range(0, scale) };
        if rows.agents[a] != 1 {
            let own = if random.once_in(3) { import / 8 } else { 0 };
            imports[a] += referred(own, 0);
            rows.boundaries.push([wanted, 0, own, 0]);
            continue;
        }
        let any = random.range(0, 5_000);
        let factor = random.pick(&[0, 1, 500, 4_999, 5_000, any]);
        let mut export = if exporting && random.once_in(3) { random.range(0, scale) } else { 0 };
        imports[a] += referred(import, factor);
        if exports[a] + referred(export, factor) > imports[a] {
            export = 0;
        }
        exports[a] += referred(export, factor);
        rows.boundaries.push([wanted, factor, import, export]);
    }
    let rounded = |a: usize| (imports[a] - exports[a] + 5_000) / 10_000;
    let consumed: Vec<u64> = (0..agents).map(|a| if rows.agents[a] == 1 { rounded(a) } else { 0 }).collect();
    let total: u64 = consumed.iter().sum();
    let gained: u64 = (0..agents).map(rounded).sum();
    let some = random.below(scale as u64 + 1);
    let losses = if total == 0 { 0 } else { random.pick(&[0, 1, 2, total / 50, total / 7, some, 3 * total]) };
    let meters: Vec<usize> = (0..count).filter(|&j| rows.agents[rows.boundaries[j][0] as usize] != 1).collect();
    let mut parts = vec![0; meters.len()];
    spread(random, gained + losses, ENERGY as u64, &mut parts);
    for (&j, part) in meters.iter().zip(parts) {
        rows.boundaries[j][3] = part as u32;
    }
    consumed
}

/// All energy that generators with plants export: what the schedule has to meet.
fn to_schedule(rows: &Rows) -> u64 {
    let generated = rows.boundaries.iter().filter(|b| rows.agents[b[0] as usize] == 2);
    generated.map(|b| b[3] as u64).sum()
}

fn offers(random: &mut Random, rows: &mut Rows, count: usize, generators: &[u32]) {
    let demand = to_schedule(rows);
    let some = random.below(demand + 10);
    let spare = random.pick(&[0, 1, demand / 5, some]);
    let mut parts = vec![0; count.max(1)];
    spread(random, demand + spare, ENERGY as u64, &mut parts);
    let prices = prices(random);
    for part in parts {
        let price = random.pick(&prices);
        let inflexible = random.once_in(4) as u32;
        let some = random.below(part + 1);
        let must_run = if inflexible == 0 { 0 } else { random.pick(&[0, 1.min(part), part / 3, some, part]) };
        rows.plants.push([random.pick(generators), inflexible, must_run as u32, price, part as u32]);
    }
}

fn deals(
    random: &mut Random,
    rows: &mut Rows,
    count: usize,
    scale: u32,
    retailers: &[u32],
    generators: &[u32],
    consumed: &[u64],
) {
    let prices = prices(random);
    const MIXES: [&[u32]; 7] = [&[1, 2, 3], &[1, 2, 3], &[2], &[3], &[2, 3], &[1, 2], &[1, 2, 3, 3, 3]];
    let kinds = random.pick(&MIXES);
    let buyers = &retailers[..random.range(1, retailers.len() as u32) as usize];
    for _ in 0..count {
        let buyer = random.pick(buyers);
        let d = consumed[buyer as usize].min(ENERGY as u64) as u32;
        let held = (count / buyers.len()).max(1) as u32;
        let (within, any, near) = (random.range(0, d), random.range(0, scale), random.range(0, 3 * (d / held) + 1));
        let quantity = random.pick(&[0, 1, d, d / 2, d / 3, d / held, near, near, within, any]);
        let (kind, price) = (random.pick(kinds), random.pick(&prices));
        rows.contracts.push([random.pick(generators), buyer, kind, price, quantity]);
    }
}

/// The largest counts with every value at an end of its range, so that sums are as large as they get. A third settle.
pub fn extreme(random: &mut Random) -> Rows {
    let generators = random.pick(&[1, 8, 32, 63]);
    let agents: Vec<u32> = (0..64).map(|a| if a < generators { 2 } else { 1 }).collect();
    let mut rows = Rows { agents, ..Rows::default() };
    let (generating, consuming) = (random.range(0, 64), random.range(0, 64));
    let buyers = random.pick(&[1, 64 - generators]);
    let kinds = random.pick(&[[1, 1], [2, 2], [3, 3], [1, 2], [2, 3]]);
    for j in 0..256 {
        let own = if random.once_in(40) { ENERGY } else { 0 };
        let factor = random.pick(&[0, 5_000]);
        rows.boundaries.push(match j {
            _ if j < 100 => [j % generators, 0, own, if j < generating { ENERGY } else { 0 }],
            _ if j < 100 + consuming => [generators + j % buyers, factor, ENERGY, own],
            _ => [63, 5_000, 0, 0],
        });
    }
    for i in 0..64 {
        let inflexible = random.once_in(4) as u32;
        let must_run = if random.once_in(3) { inflexible * ENERGY } else { 0 };
        rows.plants.push([i % generators, inflexible, must_run, random.pick(&[0, PRICE, PRICE]), ENERGY]);
    }
    for i in 0..256 {
        let (kind, price) = (random.pick(&kinds), random.pick(&[0, PRICE]));
        rows.contracts.push([i % generators, generators + i % buyers, kind, price, ENERGY]);
    }
    rows
}

// ---- damage

const EDGES: [u32; 22] = [
    0,
    1,
    2,
    3,
    4,
    63,
    64,
    65,
    255,
    256,
    257,
    4_999,
    5_000,
    5_001,
    999_999,
    PRICE,
    PRICE + 1,
    ENERGY,
    ENERGY + 1,
    65_535,
    65_536,
    u32::MAX,
];

/// A field set to a value at or near a limit.
pub fn edge(random: &mut Random, rows: &mut Rows) {
    let value = match random.below(4) {
        0 => rows.agents.len() as u32,
        1 => random.draw() as u32,
        _ => random.pick(&EDGES),
    };
    let mut row = |n: usize| random.below(n as u64) as usize;
    let turn = row(4);
    match turn {
        0 if !rows.agents.is_empty() => {
            let i = row(rows.agents.len());
            rows.agents[i] = value;
        }
        1 if !rows.boundaries.is_empty() => {
            let (i, k) = (row(rows.boundaries.len()), row(4));
            rows.boundaries[i][k] = value;
        }
        2 if !rows.plants.is_empty() => {
            let (i, k) = (row(rows.plants.len()), row(5));
            rows.plants[i][k] = value;
        }
        3 if !rows.contracts.is_empty() => {
            let (i, k) = (row(rows.contracts.len()), row(5));
            rows.contracts[i][k] = value;
        }
        _ => {}
    }
}

/// A kind of agent named where the other belongs.
fn wrong_party(random: &mut Random, rows: &mut Rows) {
    if rows.agents.is_empty() {
        return;
    }
    let other = random.below(rows.agents.len() as u64) as u32;
    if random.once_in(2) && !rows.plants.is_empty() {
        let i = random.below(rows.plants.len() as u64) as usize;
        rows.plants[i][0] = other;
    } else if !rows.contracts.is_empty() {
        let i = random.below(rows.contracts.len() as u64) as usize;
        rows.contracts[i][random.below(2) as usize] = other;
    }
}

/// A balance that fails, or fails by one.
fn imbalance(random: &mut Random, rows: &mut Rows) {
    let turn = random.below(6);
    let kind_of = |agent: u32| rows.agents.get(agent as usize).copied().unwrap_or(0);
    let of_kind =
        |kind: u32| -> Vec<usize> { (0..rows.boundaries.len()).filter(|&j| kind_of(rows.boundaries[j][0]) == kind).collect() };
    let (retail, generating) = (of_kind(1), of_kind(2));
    match turn {
        // 7: a retailer delivers more than it takes
        0 if !retail.is_empty() => {
            let j = random.pick(&retail);
            let row = &mut rows.boundaries[j];
            row[3] = (row[2] + random.range(0, 2)).min(ENERGY);
        }
        // 8: less enters than leaves
        1 if !generating.is_empty() => {
            let j = random.pick(&generating);
            let row = &mut rows.boundaries[j];
            row[3] = row[3].saturating_sub(random.pick(&[1, 2, ENERGY]));
        }
        // 9: energy enters and nobody consumes
        2 => {
            retail.iter().for_each(|&j| rows.boundaries[j][2] = 0);
            retail.iter().for_each(|&j| rows.boundaries[j][3] = 0);
        }
        // 10: the plants offer the demand, or one less
        3 if !rows.plants.is_empty() => {
            let demand: u64 = generating.iter().map(|&j| rows.boundaries[j][3] as u64).sum();
            let mut parts = vec![0; rows.plants.len()];
            let offered = demand.saturating_sub(random.below(2));
            spread(random, offered, ENERGY as u64, &mut parts);
            for (plant, part) in rows.plants.iter_mut().zip(parts) {
                plant[4] = part as u32;
                plant[2] = plant[2].min(plant[4]);
            }
        }
        // 13: the plants must run the demand, or one more
        4 if !rows.plants.is_empty() => {
            let demand: u64 = generating.iter().map(|&j| rows.boundaries[j][3] as u64).sum();
            let mut parts = vec![0; rows.plants.len()];
            let forced = demand + random.below(2);
            spread(random, forced, ENERGY as u64, &mut parts);
            for (plant, part) in rows.plants.iter_mut().zip(parts) {
                plant[1] = 1;
                plant[2] = part as u32;
                plant[4] = plant[4].max(plant[2]);
            }
        }
        // 5: a must-run at its bound, or one over it
        5 if !rows.plants.is_empty() => {
            let i = random.below(rows.plants.len() as u64) as usize;
            let plant = &mut rows.plants[i];
            let bound = if plant[1] == 0 { 0 } else { plant[4] };
            plant[2] = bound.saturating_add(random.range(0, 1));
        }
        _ => {}
    }
}

/// One row more than a section may have, or exactly as many.
pub fn crowd(random: &mut Random, rows: &mut Rows) {
    let more = random.below(2) as usize;
    match random.below(4) {
        0 => rows.agents.resize(64 + more, 1),
        1 => rows.boundaries.resize(256 + more, [0, 0, 0, 0]),
        2 => rows.plants.resize(64 + more, [0, 0, 0, 0, 0]),
        _ => rows.contracts.resize(256 + more, [0, 1, 1, 0, 0]),
    }
}

/// A word of the trailer changed: by little, or so that 16 times it wraps 32 bits.
fn trailer(random: &mut Random, sheet: &mut [u8]) {
    if sheet.len() < 32 {
        return;
    }
    let at = sheet.len() - 32 + 4 * random.below(8) as usize;
    let old = u32::from_le_bytes(sheet[at..at + 4].try_into().unwrap());
    let any = random.draw() as u32;
    let by = random.pick(&[1, 16, 1 << 28, 1 << 29, 1 << 31, 3 << 28, u32::MAX, 0u32.wrapping_sub(16), any]);
    sheet[at..at + 4].copy_from_slice(&old.wrapping_add(by).to_le_bytes());
}

/// Two words of the trailer changed so that their sum stays.
fn shifted(random: &mut Random, sheet: &mut [u8]) {
    if sheet.len() < 32 {
        return;
    }
    let first = sheet.len() - 32 + 4;
    let by = random.pick(&[1u32, 1 << 28, 1 << 31]);
    let places = [first + 8 * random.below(4) as usize, first + 8 * random.below(4) as usize];
    for (at, by) in places.into_iter().zip([by, by.wrapping_neg()]) {
        let old = u32::from_le_bytes(sheet[at..at + 4].try_into().unwrap());
        sheet[at..at + 4].copy_from_slice(&old.wrapping_add(by).to_le_bytes());
    }
}

fn damaged_bytes(random: &mut Random, sheet: &mut Vec<u8>) {
    match random.below(8) {
        0 => {
            for _ in 0..random.range(1, 3) {
                if !sheet.is_empty() {
                    let at = random.below(sheet.len() as u64) as usize;
                    sheet[at] ^= 1 << random.below(8);
                }
            }
        }
        // mostly a filler: bytes 4 to 7 of a row
        1 | 2 if sheet.len() >= 48 => {
            let row = random.below((sheet.len() as u64 - 32) / 16) as usize;
            sheet[16 * row + random.range(4, 15).min(random.range(4, 15)) as usize] ^= 1 << random.below(8);
        }
        3 => trailer(random, sheet),
        4 => shifted(random, sheet),
        5 => {
            let by = random.pick(&[1, 8, 15, 16, 32]);
            sheet.truncate(sheet.len().saturating_sub(by));
        }
        6 => {
            let by = random.pick(&[1, 8, 15, 16, 32]);
            let fill = random.pick(&[0, 255]);
            sheet.resize(sheet.len() + by, fill);
        }
        _ => {
            // rows before the first, so that only the length is wrong
            let by = random.pick(&[1, 16, 32]);
            sheet.splice(0..0, vec![0; by]);
        }
    }
}

fn rubbish(random: &mut Random) -> Vec<u8> {
    let most = random.pick(&[64, 400, 10_400]);
    let length = random.below(most + 1) as usize;
    let length = if random.once_in(2) { length } else { length / 16 * 16 };
    let dense = random.once_in(2);
    (0..length).map(|_| if dense || random.once_in(12) { random.draw() as u8 } else { 0 }).collect()
}

/// Any sheet: about half are whole.
pub fn sheet(random: &mut Random) -> Vec<u8> {
    if random.once_in(50) {
        return rubbish(random);
    }
    let mut rows = hour(random);
    let mut faults = if random.once_in(2) { 0 } else { random.range(1, 2) };
    let mut late = 0;
    while faults > 0 {
        match random.below(12) {
            0..=2 => edge(random, &mut rows),
            3 => wrong_party(random, &mut rows),
            4..=6 => imbalance(random, &mut rows),
            7 if random.once_in(4) => crowd(random, &mut rows),
            _ => late += 1,
        }
        faults -= 1;
    }
    let mut bytes = rows.bytes();
    for _ in 0..late {
        damaged_bytes(random, &mut bytes);
    }
    bytes
}

// ---- lent lists

/// A list lent out of a larger one. All cells have different values, and those around the lent part show a write outside it.
#[derive(Clone, Debug, PartialEq)]
pub struct Lent<T> {
    cells: Vec<T>,
}

const MARGIN: usize = 4;

impl<T: Copy> Lent<T> {
    pub fn new(length: usize, value: impl Fn(usize) -> T) -> Lent<T> {
        Lent { cells: (0..length + 2 * MARGIN).map(value).collect() }
    }

    pub fn list(&mut self) -> &mut [T] {
        let end = self.cells.len() - MARGIN;
        &mut self.cells[MARGIN..end]
    }
}

pub fn lent_u32(length: usize) -> Lent<u32> {
    Lent::new(length, |i| 0xdead_0000 + i as u32)
}

pub fn lent_i64(length: usize) -> Lent<i64> {
    Lent::new(length, |i| i64::MIN + 77 + i as i64)
}

pub fn lent_u8(length: usize) -> Lent<u8> {
    Lent::new(length, |i| (i * 37 + 11) as u8)
}

/// A length around what is needed: short at times, mostly exact or long.
pub fn length_near(random: &mut Random, needed: usize, short_in: u64) -> usize {
    if needed > 0 && random.once_in(short_in) {
        return random.pick(&[0, needed / 2, needed - 1, needed - 1]);
    }
    needed + random.pick(&[0, 0, 1, 5])
}
