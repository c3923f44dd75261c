//! Nanoseconds an hour: the proved library and the fast Rust settlement side by side, and the plain one for scale. Then what checking
//! our own statement of an hour takes, beside settling it.
//!
//! `cargo run --release --bin bench`, with a number of rounds after `--` if 301 are too many or too few. In each round every sheet is
//! settled in one batch by each, one after another and in turning order, so that a slow moment of the machine meets all alike; the
//! medians of the batches are printed. The lent lists are the largest sheet's, reused from call to call and not cleared. One sheet
//! again and again teaches the processor its order, so some rows have 32 different sheets in turn.
use naomhral::{fast, plain, sheets, Refusal, Summary};
use std::hint::black_box;
use std::time::Instant;

type Settle = fn(&[u8], &mut [u32], &mut [i64], &mut [u32], &mut [u32]) -> Result<Summary, Refusal>;

#[derive(Clone)]
struct Lists {
    figures: [u32; naomhral::FIGURES_MOST],
    money: [i64; naomhral::AGENTS_MOST],
    schedule: [u32; naomhral::PLANTS_MOST],
    amounts: [u32; naomhral::CONTRACTS_MOST],
}

impl Lists {
    fn new() -> Lists {
        Lists { figures: [0; 384], money: [0; 64], schedule: [0; 64], amounts: [0; 256] }
    }

    fn settle(&mut self, settle: Settle, sheet: &[u8]) -> Result<Summary, Refusal> {
        settle(sheet, &mut self.figures, &mut self.money, &mut self.schedule, &mut self.amounts)
    }

    fn check(&self, price: u32, sheet: &[u8]) -> Result<(), Refusal> {
        naomhral::check(sheet, price, &self.figures, &self.money, &self.schedule, &self.amounts)
    }
}

struct Case {
    name: &'static str,
    /// taken in turn
    sheets: Vec<Vec<u8>>,
    /// calls in a batch of the library or of fast; plain has a tenth
    calls: usize,
}

impl Case {
    fn one(name: &'static str, rows: sheets::Rows, calls: usize) -> Case {
        Case::bytes(name, rows.bytes(), calls)
    }

    fn bytes(name: &'static str, sheet: Vec<u8>, calls: usize) -> Case {
        Case { name, sheets: vec![sheet], calls }
    }

    fn turns(name: &'static str, sheets: Vec<sheets::Rows>, calls: usize) -> Case {
        Case { name, sheets: sheets.iter().map(|rows| rows.bytes()).collect(), calls }
    }

    /// Nanoseconds a call in one batch; each call has the place of its sheet and the sheet.
    fn time(&self, calls: usize, mut call: impl FnMut(usize, &[u8])) -> f64 {
        let start = Instant::now();
        for (i, sheet) in self.sheets.iter().enumerate().cycle().take(calls) {
            call(i, black_box(sheet));
        }
        start.elapsed().as_nanos() as f64 / calls as f64
    }
}

fn settled() -> Vec<Case> {
    vec![
        Case::one("empty hour (0, 0, 0, 0)", sheets::Rows::default(), 2_000),
        Case::one("worked hour (4, 4, 3, 4)", sheets::worked(), 1_000),
        Case::one("middling (20, 60, 20, 60)", sheets::middling(), 200),
        Case::turns("middling, 32 sheets in turn", sheets::middling_in_turn(), 192),
        Case::one("largest (64, 256, 64, 256)", sheets::largest(), 50),
        Case::turns("largest, 32 sheets in turn", sheets::largest_in_turn(), 64),
        Case::turns("largest, distinct prices, 32 in turn", sheets::distinct_in_turn(), 64),
        Case::one("largest, one buyer, two groups", sheets::one_buyer(), 50),
        Case::one("largest, one buyer, one group shares", sheets::one_group(), 50),
        Case::one("largest, all contracts fit", sheets::all_fit(), 50),
        Case::one("largest, no contracts", sheets::no_contracts(), 100),
    ]
}

fn refused() -> Vec<Case> {
    let mut displaced = sheets::largest().bytes();
    let trailer = displaced.len() - 32;
    displaced[trailer] ^= 16;
    vec![
        Case::bytes("refused 1: 31 bytes", vec![0; 31], 5_000),
        Case::bytes("refused 2: largest, a distance", displaced, 5_000),
        Case::one("refused 6: march (4, 4, 3, 4)", sheets::march(), 1_000),
        Case::one("refused 10: largest", sheets::uncovered(), 100),
    ]
}

/// The lists of a day.
struct DayLists {
    figures: Vec<u32>,
    money: Vec<i64>,
    schedule: Vec<u32>,
    amounts: Vec<u32>,
}

impl DayLists {
    fn new() -> DayLists {
        DayLists {
            figures: vec![0; naomhral::HOURS * naomhral::FIGURES_MOST],
            money: vec![0; naomhral::HOURS * naomhral::AGENTS_MOST],
            schedule: vec![0; naomhral::HOURS * naomhral::PLANTS_MOST],
            amounts: vec![0; naomhral::HOURS * naomhral::CONTRACTS_MOST],
        }
    }

    fn at_one_go(&mut self, bytes: &[u8], lengths: &[u32; naomhral::HOURS]) {
        let told = naomhral::day(bytes, lengths, &mut self.figures, &mut self.money, &mut self.schedule, &mut self.amounts);
        assert!(black_box(told).is_ok());
    }

    /// The same by 24 calls, each with the part that the day lends.
    fn by_hours(&mut self, bytes: &[u8], sheet: usize) {
        let parts = self
            .figures
            .chunks_exact_mut(naomhral::FIGURES_MOST)
            .zip(self.money.chunks_exact_mut(naomhral::AGENTS_MOST))
            .zip(self.schedule.chunks_exact_mut(naomhral::PLANTS_MOST))
            .zip(self.amounts.chunks_exact_mut(naomhral::CONTRACTS_MOST));
        for (hour, (((figures, money), schedule), amounts)) in bytes.chunks_exact(sheet).zip(parts) {
            assert!(black_box(naomhral::settle(hour, figures, money, schedule, amounts)).is_ok());
        }
    }
}

/// Nanoseconds a day of 24 largest sheets at one go, and by 24 calls, in turning order.
fn days(rounds: usize) -> [f64; 2] {
    let sheet = sheets::largest().bytes();
    let bytes = sheet.repeat(naomhral::HOURS);
    let lengths = [sheet.len() as u32; naomhral::HOURS];
    let mut lists = DayLists::new();
    let mut times = [Vec::new(), Vec::new()];
    for round in 0..rounds {
        for turn in 0..2 {
            let k = (round + turn) % 2;
            let start = Instant::now();
            for _ in 0..4 {
                match k {
                    0 => lists.at_one_go(black_box(&bytes), &lengths),
                    _ => lists.by_hours(black_box(&bytes), sheet.len()),
                }
            }
            times[k].push(start.elapsed().as_nanos() as f64 / 4.0);
        }
    }
    times.map(median)
}

fn median(mut times: Vec<f64>) -> f64 {
    times.sort_by(f64::total_cmp);
    times[times.len() / 2]
}

/// The library's, fast's and plain's nanoseconds, one row a case.
fn settling(rounds: usize, cases: &[Case]) {
    let engines: [Settle; 3] = [naomhral::settle, fast::settle, plain::settle];
    let mut lists = Lists::new();
    let mut times = vec![[const { Vec::new() }; 3]; cases.len()];
    for case in cases {
        for sheet in &case.sheets {
            let answers = engines.map(|settle| lists.settle(settle, sheet));
            assert!(answers[0] == answers[2] && answers[1] == answers[2], "{}: the answers differ", case.name);
        }
    }
    for round in 0..rounds {
        for (case, times) in cases.iter().zip(&mut times) {
            for turn in 0..3 {
                let k = (round + turn) % 3;
                let calls = if k == 2 { case.calls.div_ceil(10) } else { case.calls };
                times[k].push(case.time(calls, |_, sheet| {
                    let _ = black_box(lists.settle(engines[k], sheet));
                    black_box(&mut lists);
                }));
            }
        }
    }
    println!("| sheet | library | fast | library / fast | plain |");
    println!("|---|---:|---:|---:|---:|");
    for (case, times) in cases.iter().zip(times) {
        let [library, fast, plain] = times.map(median);
        println!("| {} | {library:.0} | {fast:.0} | {:.2} | {plain:.0} |", case.name, library / fast);
    }

    let [day, hours] = days(rounds);
    println!();
    println!("A day of 24 largest sheets: {day:.0} at one go, {hours:.0} by 24 calls, ratio {:.2}.", day / hours);
}

/// Checking our own statement of each sheet beside settling it, one row a case.
fn checking(rounds: usize, cases: &[Case]) {
    println!("| sheet | check | settle | check / settle |");
    println!("|---|---:|---:|---:|");
    for case in cases {
        let mut lists = Lists::new();
        let settle = |sheet: &Vec<u8>| (lists.settle(naomhral::settle, sheet).expect("settled").price, lists.clone());
        let ours: Vec<(u32, Lists)> = case.sheets.iter().map(settle).collect();
        let accepted = ours.iter().zip(&case.sheets).all(|((price, lists), sheet)| lists.check(*price, sheet).is_ok());
        assert!(accepted, "{}: a statement of our own is refused", case.name);
        let mut times = [const { Vec::new() }; 2];
        for _ in 0..rounds {
            times[0].push(case.time(case.calls, |i, sheet| {
                let _ = black_box(ours[i].1.check(ours[i].0, sheet));
            }));
            times[1].push(case.time(case.calls, |_, sheet| {
                let _ = black_box(lists.settle(naomhral::settle, sheet));
                black_box(&mut lists);
            }));
        }
        let [check, settle] = times.map(median);
        println!("| {} | {check:.0} | {settle:.0} | {:.2} |", case.name, check / settle);
    }
}

fn main() {
    let rounds: usize = match std::env::args().nth(1) {
        Some(word) => word.parse().expect("the number of rounds"),
        None => 301,
    };
    println!("Nanoseconds a call, medians of {rounds} batches; lists reused, not cleared.");
    println!("Rows in brackets: agents, boundaries, plants, contracts.");
    println!();
    settling(rounds, &settled().into_iter().chain(refused()).collect::<Vec<Case>>());
    println!();
    checking(rounds, &settled());
}
