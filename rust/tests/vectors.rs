//! The vectors of the repository, run through the library, `plain` and `fast`, each against the recorded answers.
use naomhral::{fast, plain, Refusal, Summary};
use std::fs;
use std::path::PathBuf;

type Settle = fn(&[u8], &mut [u32], &mut [i64], &mut [u32], &mut [u32]) -> Result<Summary, Refusal>;
type Share = fn(u32, &[u32], &mut [u32]) -> Result<(), Refusal>;

/// A file of a crate, or the one in the folder that NAOMHRAL_VECTORS names.
fn file(of_crate: &str, name: &str, other: &str) -> Vec<u8> {
    let path = match std::env::var("NAOMHRAL_VECTORS") {
        Ok(folder) => PathBuf::from(folder).join(other),
        Err(_) => PathBuf::from(env!("CARGO_MANIFEST_DIR")).join("../crates").join(of_crate).join(name),
    };
    fs::read(&path).unwrap_or_else(|e| panic!("{}: {e}", path.display()))
}

fn text(bytes: Vec<u8>) -> String {
    String::from_utf8(bytes).unwrap()
}

fn word(bytes: &[u8], at: usize) -> u32 {
    u32::from_le_bytes(bytes[at..at + 4].try_into().unwrap())
}

/// Each case is its length and its bytes.
fn cases(bytes: &[u8]) -> Vec<&[u8]> {
    let mut found = vec![];
    let mut at = 0;
    while at < bytes.len() {
        let length = word(bytes, at) as usize;
        found.push(&bytes[at + 4..at + 4 + length]);
        at += 4 + length;
    }
    found
}

/// Each case is an amount, the count of weights and the weights.
fn share_cases(bytes: &[u8]) -> Vec<(u32, Vec<u32>)> {
    let mut found = vec![];
    let mut at = 0;
    while at < bytes.len() {
        let (amount, count) = (word(bytes, at), word(bytes, at + 4) as usize);
        found.push((amount, (0..count).map(|i| word(bytes, at + 8 + 4 * i)).collect()));
        at += 8 + 4 * count;
    }
    found
}

fn listed(name: &str, cells: impl Iterator<Item = u32>) -> String {
    let mut line = name.to_string();
    for cell in cells {
        line += &format!(" {cell}");
    }
    line + "\n"
}

/// What the recorded file says of one case, from a settlement into lists of the largest sheet's size.
fn lines(number: usize, sheet: &[u8], settle: Settle) -> String {
    let mut figures = [0; 384];
    let mut money = [0; 64];
    let mut schedule = [0; 64];
    let mut amounts = [0; 256];
    let mut said = format!("case {number}\n");
    match settle(sheet, &mut figures, &mut money, &mut schedule, &mut amounts) {
        Err(r) => said += &format!("refused {} {}\n", r.number, r.place),
        Ok(s) => {
            let trailer = sheet.len() - 32;
            let count = |section: usize| word(sheet, trailer + 8 * section + 4) as usize;
            said += &format!("hour {} {} {}\n", s.price, s.demand, s.losses);
            for a in 0..count(0) {
                let [_, own, import, contracted, bought, sold] = figures[6 * a..6 * a + 6] else { panic!() };
                let (kind, money) = (word(sheet, 16 * a), money[a]);
                said += &format!("{a} {kind} {own} {import} {contracted} {bought} {sold} {money}\n");
            }
            said += &listed("shares", (0..count(0)).map(|a| figures[6 * a]));
            said += &listed("schedule", schedule[..count(2)].iter().copied());
            said += &listed("amounts", amounts[..count(3)].iter().copied());
        }
    }
    said
}

/// The recorded answers, cut at each line that begins with the word.
fn recorded(file: &str, word: &str) -> Vec<String> {
    let mut found: Vec<String> = vec![];
    for line in file.lines() {
        if line.split(' ').next() == Some(word) {
            found.push(String::new());
        }
        found.last_mut().unwrap().push_str(&format!("{line}\n"));
    }
    found
}

fn hours_by(settle: Settle) {
    let bytes = file("hour_vectors", "stdin", "cases.bin");
    let expected = recorded(&text(file("hour_vectors", "stdout", "expected.txt")), "case");
    let cases = cases(&bytes);
    assert!(cases.len() >= 800 && cases.len() == expected.len());
    for (i, sheet) in cases.iter().enumerate() {
        assert_eq!(lines(i, sheet, settle).trim_end(), expected[i].trim_end(), "case {i}");
    }
}

fn shares_by(share: Share) {
    let bytes = file("share_vectors", "stdin", "share.bin");
    let expected = recorded(&text(file("share_vectors", "stdout", "share_expected.txt")), "share");
    let cases = share_cases(&bytes);
    assert!(cases.len() >= 300 && cases.len() == expected.len());
    for (i, (amount, weights)) in cases.iter().enumerate() {
        let mut out = vec![0; weights.len()];
        share(*amount, weights, &mut out).unwrap();
        assert_eq!(listed(&format!("share {i}"), out.into_iter()).trim_end(), expected[i].trim_end());
    }
}

#[test]
fn hours_by_the_library() {
    hours_by(naomhral::settle);
}

#[test]
fn hours_by_plain() {
    hours_by(plain::settle);
}

#[test]
fn hours_by_fast() {
    hours_by(fast::settle);
}

#[test]
fn shares_by_the_library() {
    shares_by(naomhral::share);
}

#[test]
fn shares_by_plain() {
    shares_by(plain::share);
}

#[test]
fn shares_by_fast() {
    shares_by(fast::share);
}

/// The page of each case is its recorded lines without the three lists.
#[test]
fn pages() {
    let bytes = file("hour_vectors", "stdin", "cases.bin");
    let expected = recorded(&text(file("hour_vectors", "stdout", "expected.txt")), "case");
    for (i, sheet) in cases(&bytes).iter().enumerate() {
        let page: String = expected[i]
            .lines()
            .skip(1)
            .filter(|l| !["shares", "schedule", "amounts"].contains(&l.split(' ').next().unwrap()))
            .map(|l| format!("{l}\n"))
            .collect();
        let mut out = [0; naomhral::PAGE_MOST];
        let length = naomhral::page(sheet, &mut out).unwrap();
        assert_eq!(std::str::from_utf8(&out[..length]).unwrap(), page, "case {i}");
        assert_eq!(plain::printed(sheet), page, "case {i}");
    }
}
