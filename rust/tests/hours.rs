//! Settling, reading and printing random sheets: the library against `plain`, and `fast` beside it.
mod common;
use common::*;
use naomhral::sheets::Random;
use naomhral::{fast, plain, Refusal, Summary};

type Settle = fn(&[u8], &mut [u32], &mut [i64], &mut [u32], &mut [u32]) -> Result<Summary, Refusal>;

#[derive(Clone, Debug, PartialEq)]
struct Lists {
    figures: Lent<u32>,
    money: Lent<i64>,
    schedule: Lent<u32>,
    amounts: Lent<u32>,
}

impl Lists {
    fn new(lengths: [usize; 4]) -> Lists {
        Lists {
            figures: lent_u32(lengths[0]),
            money: lent_i64(lengths[1]),
            schedule: lent_u32(lengths[2]),
            amounts: lent_u32(lengths[3]),
        }
    }

    /// Lists for a sheet's own counts, each short once in 40 times.
    fn near(random: &mut Random, sheet: &[u8]) -> Lists {
        let word = |at: usize| u32::from_le_bytes(sheet[at..at + 4].try_into().unwrap()) as usize;
        let count = |section: usize| match sheet.len().checked_sub(32) {
            Some(trailer) => word(trailer + 8 * section + 4).min(300),
            None => 3,
        };
        let needed = [6 * count(0), count(0), count(2), count(3)];
        Lists::new(needed.map(|n| length_near(random, n, 40)))
    }

    fn settle(&mut self, settle: Settle, sheet: &[u8]) -> Result<Summary, Refusal> {
        settle(sheet, self.figures.list(), self.money.list(), self.schedule.list(), self.amounts.list())
    }
}

/// A sheet inside other bytes: at any place in memory, and with something behind it that must not matter.
struct Embedded {
    bytes: Vec<u8>,
    first: usize,
    length: usize,
}

impl Embedded {
    fn new(random: &mut Random, sheet: &[u8]) -> Embedded {
        let first = random.below(16) as usize;
        let around = random.draw() as u8;
        let mut bytes = vec![around; first];
        bytes.extend(sheet);
        bytes.extend([around; 32]);
        Embedded { bytes, first, length: sheet.len() }
    }

    fn sheet(&self) -> &[u8] {
        &self.bytes[self.first..self.first + self.length]
    }
}

/// What the sheets have to reach.
#[derive(Default, Debug)]
struct Seen {
    numbers: [usize; 14],
    shared_groups: usize,
    conditional_refused: usize,
    conditional_taken: usize,
    dearer_inflexible: usize,
    must_run_alone: usize,
    must_run_and_more: usize,
    equal_offers_cut: usize,
    losses_cut: usize,
    retailers_selling: usize,
    generators_buying: usize,
    small_selling: usize,
    small_buying: usize,
    rounded_once: usize,
}

impl Seen {
    fn note(&mut self, sheet: &[u8]) {
        let (Ok(s), Ok(h)) = (plain::open(sheet), plain::hour(sheet)) else { return };
        let deals = || s.contracts.iter().zip(&h.amounts);
        let offers = || s.plants.iter().zip(&h.schedule);
        let cut = |p: &plain::Plant, q: u64| q > 0 && q < p.availability as u64;
        let is = |holds: bool| holds as usize;
        self.shared_groups += is(deals().any(|(c, &q)| c.kind == 3 && q > 0 && q < c.quantity as u64));
        self.conditional_refused += is(deals().any(|(c, &q)| c.kind == 2 && q == 0 && c.quantity > 0));
        self.conditional_taken += is(deals().any(|(c, &q)| c.kind == 2 && q > 0));
        self.dearer_inflexible += is(offers().any(|(p, &q)| p.inflexible == 1 && q > 0 && p.price as u64 > h.price));
        let musts =
            |more: bool| offers().any(|(p, &q)| p.must_run > 0 && q < p.availability as u64 && more == (q > p.must_run as u64));
        self.must_run_alone += is(musts(false));
        self.must_run_and_more += is(musts(true));
        self.equal_offers_cut +=
            is(offers().any(|(p, &q)| cut(p, q) && s.plants.iter().filter(|other| other.price == p.price).count() > 1));
        self.losses_cut += is(h.losses > 0 && h.lines.iter().filter(|l| l.share > 0).count() > 1);
        self.retailers_selling += is(h.lines.iter().zip(&h.kinds).any(|(l, &k)| k == 1 && l.sold > 0));
        self.generators_buying += is(h.lines.iter().zip(&h.kinds).any(|(l, &k)| k == 2 && l.bought > 0));
        self.small_selling += is(h.lines.iter().zip(&h.kinds).any(|(l, &k)| k == 3 && l.sold > 0));
        self.small_buying += is(h.lines.iter().zip(&h.kinds).any(|(l, &k)| k == 3 && l.bought > 0));
        // a consumption that its rows, each rounded by itself, miss
        let by_rows = |a: usize| -> i64 {
            let own = s.boundaries.iter().filter(|b| b.agent as usize == a);
            let whole = |reading: u32, factor: u32| ((reading as u64 * (10_000 + factor as u64) + 5_000) / 10_000) as i64;
            own.map(|b| whole(b.import, b.factor) - whole(b.export, b.factor)).sum()
        };
        self.rounded_once +=
            is((0..h.kinds.len()).any(|a| h.kinds[a] == 1 && by_rows(a) != h.lines[a].own as i64 - h.lines[a].share as i64));
    }

    fn check(&self) {
        eprintln!("{self:?}");
        for (number, count) in self.numbers.iter().enumerate() {
            // 12 is for rows and sections that are asked for
            assert!(*count >= 100 || number == 12, "answer {number} was given {count} times");
        }
        assert!(self.numbers[0] * 5 >= self.numbers.iter().sum::<usize>() * 2, "too few settled");
        let features = [
            self.shared_groups,
            self.conditional_refused,
            self.conditional_taken,
            self.dearer_inflexible,
            self.must_run_alone,
            self.must_run_and_more,
            self.equal_offers_cut,
            self.losses_cut,
            self.retailers_selling,
            self.generators_buying,
            self.small_selling,
            self.small_buying,
            self.rounded_once,
        ];
        assert!(features.iter().all(|&f| f >= 500), "a case is too rare: {features:?}");
    }
}

fn number_of<T>(answer: &Result<T, Refusal>) -> usize {
    answer.as_ref().err().map_or(0, |r| r.number as usize)
}

/// What each small generator exports, 0 for other agents.
fn injections(sheet: &[u8]) -> Vec<u64> {
    let s = plain::open(sheet).unwrap();
    let of = |a: usize| s.boundaries.iter().filter(move |b| b.agent as usize == a).map(|b| b.export as u64).sum();
    (0..s.kinds.len()).map(|a| if s.kinds[a] == 3 { of(a) } else { 0 }).collect()
}

/// Each hour balances by itself: shares sum to the losses, schedules and small generators' exports to the demand, and all that is
/// bought is sold.
fn balances(sheet: &[u8], lists: &mut Lists, summary: Summary) {
    let counts = naomhral::read(sheet).unwrap();
    let figures = lists.figures.list();
    let sum = |k: usize| (0..counts.agents as usize).map(|a| figures[6 * a + k] as u64).sum::<u64>();
    assert_eq!(sum(0), summary.losses as u64);
    assert_eq!(sum(4), sum(5));
    let schedule = &lists.schedule.list()[..counts.plants as usize];
    let small: u64 = injections(sheet).iter().sum();
    assert_eq!(schedule.iter().map(|&q| q as u64).sum::<u64>() + small, summary.demand as u64);
    assert_eq!(lists.money.list()[..counts.agents as usize].iter().sum::<i64>(), 0);
}

fn settle_all(seed: u64, sheets: usize) {
    let mut random = Random(seed);
    let mut seen = Seen::default();
    for n in 0..sheets {
        let sheet = sheet(&mut random);
        let before = Lists::near(&mut random, &sheet);
        let mut expected = before.clone();
        let answer = expected.settle(plain::settle, &sheet);
        if answer.is_err() {
            assert_eq!(expected, before);
        }
        let embedded = Embedded::new(&mut random, &sheet);
        for (name, settle) in [("the library", naomhral::settle as Settle), ("fast", fast::settle)] {
            let mut lists = before.clone();
            let given = lists.settle(settle, embedded.sheet());
            assert_eq!(given, answer, "{name}, seed {seed}, sheet {n}");
            assert!(lists == expected, "{name}, seed {seed}, sheet {n}: the lists differ");
            if let Ok(summary) = given {
                balances(&sheet, &mut lists, summary);
            }
        }
        seen.numbers[number_of(&answer)] += 1;
        seen.note(&sheet);
    }
    seen.check();
}

#[test]
fn settling_as_plain_does() {
    settle_all(1, 60_000);
}

#[test]
fn settling_as_plain_does_again() {
    settle_all(2, 60_000);
}

#[test]
fn reading_and_printing_as_plain_does() {
    let mut random = Random(3);
    let mut short = 0;
    for n in 0..40_000 {
        let sheet = sheet(&mut random);
        assert_eq!(naomhral::read(&sheet), plain::read(&sheet), "sheet {n}");

        let page = plain::printed(&sheet);
        assert!(page.len() <= naomhral::PAGE_MOST);
        let before = lent_u8(length_near(&mut random, page.len(), 4));
        let mut expected = before.clone();
        let answer = plain::page(&sheet, expected.list());
        let mut given = before.clone();
        assert_eq!(naomhral::page(&sheet, given.list()), answer, "sheet {n}");
        assert!(given == expected, "sheet {n}: the page differs");
        if answer.is_err() {
            assert_eq!(answer, Err(Refusal::new(11, 0)));
            assert!(given == before);
            short += 1;
        }
    }
    assert!(short > 5_000);
}

/// Sheets at the ends of all ranges: the largest sums, amounts and money.
#[test]
fn extremes() {
    let mut random = Random(9);
    let (mut settled, mut money_most) = (0, 0);
    for n in 0..4_000 {
        let sheet = extreme(&mut random).bytes();
        let before = Lists::new([384, 64, 64, 256]);
        let mut expected = before.clone();
        let answer = expected.settle(plain::settle, &sheet);
        for settle in [naomhral::settle as Settle, fast::settle] {
            let mut lists = before.clone();
            assert_eq!(lists.settle(settle, &sheet), answer, "sheet {n}");
            assert!(lists == expected, "sheet {n}: the lists differ");
        }
        if answer.is_ok() {
            settled += 1;
            money_most = expected.money.list().iter().fold(money_most, |most, &m| most.max(m.saturating_abs()));
        }
    }
    eprintln!("{settled} settled, at most {money_most} centavos");
    assert!(settled > 500 && money_most > 900_000_000_000_000);
}

/// Every length of sheet from 0 to past the longest, all zero.
#[test]
fn every_length_of_zeros() {
    let zeros = vec![0; 10_400];
    for length in 0..zeros.len() {
        let sheet = &zeros[..length];
        let answer = naomhral::settle(sheet, &mut [], &mut [], &mut [], &mut []);
        assert_eq!(answer, plain::settle(sheet, &mut [], &mut [], &mut [], &mut []), "{length} bytes");
    }
}
