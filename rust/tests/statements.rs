//! The statement vectors of the repository, run through the library and `statement`, and our own settlement of each of their sheets,
//! which is always accepted, and never with another price.
use naomhral::statement::{self, Statement};
use naomhral::{plain, Refusal};
use std::fs;
use std::path::PathBuf;

/// The vectors, read from their front.
struct Pieces<'a>(&'a [u8]);

impl<'a> Pieces<'a> {
    fn bytes(&mut self, count: usize) -> &'a [u8] {
        let (front, rest) = self.0.split_at(count);
        self.0 = rest;
        front
    }

    fn word(&mut self) -> u32 {
        u32::from_le_bytes(self.bytes(4).try_into().unwrap())
    }

    fn list(&mut self) -> Vec<u32> {
        (0..self.word()).map(|_| self.word()).collect()
    }

    fn money(&mut self) -> Vec<i64> {
        (0..self.word()).map(|_| i64::from_le_bytes(self.bytes(8).try_into().unwrap())).collect()
    }
}

/// A file of the crate, or the one in the folder that NAOMHRAL_VECTORS names.
fn file(name: &str, other: &str) -> Vec<u8> {
    let path = match std::env::var("NAOMHRAL_VECTORS") {
        Ok(folder) => PathBuf::from(folder).join(other),
        Err(_) => PathBuf::from(env!("CARGO_MANIFEST_DIR")).join("../crates/statement_vectors").join(name),
    };
    fs::read(&path).unwrap_or_else(|e| panic!("{}: {e}", path.display()))
}

/// The recorded line of a case.
fn line(number: usize, answer: Result<(), Refusal>) -> String {
    let (told, place) = answer.map_or_else(|r| (r.number, r.place), |()| (0, 0));
    format!("statement {number} {told} {place}")
}

#[test]
fn vectors_agree_and_ours_is_accepted() {
    let input = file("stdin", "statements.bin");
    let expected = String::from_utf8(file("stdout", "statements_expected.txt")).unwrap();
    let mut pieces = Pieces(&input);
    let (mut settled, mut compared) = (0, 0);
    for (number, expected) in expected.lines().enumerate() {
        let length = pieces.word() as usize;
        let sheet = pieces.bytes(length);
        let price = pieces.word();
        let (figures, money, schedule, amounts) = (pieces.list(), pieces.money(), pieces.list(), pieces.list());
        assert_eq!(line(number, naomhral::check(sheet, price, &figures, &money, &schedule, &amounts)), expected);
        if !plain::open(sheet).is_ok_and(|rows| statement::tied(&rows) > 7) {
            let theirs = Statement { price, figures: &figures, money: &money, schedule: &schedule, amounts: &amounts };
            assert_eq!(line(number, statement::check(sheet, theirs)), expected);
            compared += 1;
        }
        settled += ours(sheet);
    }
    assert!(pieces.0.is_empty() && settled > 500, "{settled} of the sheets settled");
    assert!(compared > 500, "{compared} run through both");
}

/// 1 where the sheet settles: then our own lists are accepted, and with another price refused.
fn ours(sheet: &[u8]) -> usize {
    let (mut figures, mut money, mut schedule, mut amounts) = ([0; 384], [0; 64], [0; 64], [0; 256]);
    let Ok(summary) = naomhral::settle(sheet, &mut figures, &mut money, &mut schedule, &mut amounts) else { return 0 };
    assert_eq!(naomhral::check(sheet, summary.price, &figures, &money, &schedule, &amounts), Ok(()));
    let other = naomhral::check(sheet, summary.price + 1, &figures, &money, &schedule, &amounts);
    assert_eq!(other, Err(Refusal::new(Refusal::PRICE, 0)));
    1
}
