//! Why each plant and each contract got what it got: the recorded reasons, and the library held against the plain version on random
//! sheets.
mod common;
use common::*;
use naomhral::sheets::Random;
use naomhral::{plain_reasons, ContractCase, ContractReason, PlantCase, Refusal};
use std::fs;
use std::path::PathBuf;

type WhyPlant = fn(&[u8], u32) -> Result<PlantCase, Refusal>;
type WhyContract = fn(&[u8], u32) -> Result<ContractCase, Refusal>;

/// A file of the crate that runs them, or the one in the folder that NAOMHRAL_VECTORS names.
fn file(name: &str, other: &str) -> Vec<u8> {
    let path = match std::env::var("NAOMHRAL_VECTORS") {
        Ok(folder) => PathBuf::from(folder).join(other),
        Err(_) => PathBuf::from(env!("CARGO_MANIFEST_DIR")).join("../crates/reason_vectors").join(name),
    };
    fs::read(&path).unwrap_or_else(|e| panic!("{}: {e}", path.display()))
}

/// Reasons from number 0 on, until there is no such row.
fn all<T>(why: impl Fn(u32) -> Result<T, Refusal>) -> Result<Vec<T>, Refusal> {
    let mut found = vec![];
    loop {
        let number = found.len() as u32;
        match why(number) {
            Ok(case) => found.push(case),
            Err(refusal) if refusal == Refusal::new(Refusal::NOT_THERE, number) => return Ok(found),
            Err(refusal) => return Err(refusal),
        }
    }
}

fn group(reason: ContractReason) -> (u32, u32) {
    match reason {
        ContractReason::Shares { remainder, total } => (remainder, total),
        _ => (0, 0),
    }
}

/// What the recorded file says of one case.
fn lines(number: usize, sheet: &[u8], why_plant: WhyPlant, why_contract: WhyContract) -> String {
    let mut said = format!("case {number}\n");
    let plants = all(|i| why_plant(sheet, i));
    let contracts = all(|j| why_contract(sheet, j));
    match (plants, contracts) {
        (Ok(plants), Ok(contracts)) => {
            said += "plants";
            plants.iter().for_each(|case| said += &format!(" {}", case.reason.number()));
            said += "\ncontracts";
            for case in contracts {
                let (remainder, total) = group(case.reason);
                said += &format!(" {}:{remainder}:{total}", case.reason.number());
            }
            said += "\n";
        }
        (plants, contracts) => {
            let refusal = plants.unwrap_err();
            assert_eq!(Some(refusal), contracts.err());
            said += &format!("refused {} {}\n", refusal.number, refusal.place);
        }
    }
    said
}

fn reasons_by(why_plant: WhyPlant, why_contract: WhyContract) {
    let (cases, expected) = (file("stdin", "cases.bin"), String::from_utf8(file("stdout", "reasons.txt")).unwrap());
    let (mut said, mut at, mut number) = (String::new(), 0, 0);
    while at < cases.len() {
        let length = u32::from_le_bytes(cases[at..at + 4].try_into().unwrap()) as usize;
        said += &lines(number, &cases[at + 4..at + 4 + length], why_plant, why_contract);
        at += 4 + length;
        number += 1;
    }
    assert!(number >= 800);
    said.lines().zip(expected.lines()).for_each(|(ours, theirs)| assert_eq!(ours.trim_end(), theirs.trim_end()));
    assert_eq!(said.lines().count(), expected.lines().count());
}

#[test]
fn recorded_by_the_library() {
    reasons_by(naomhral::why_plant, naomhral::why_contract);
}

#[test]
fn recorded_by_plain() {
    reasons_by(plain_reasons::why_plant, plain_reasons::why_contract);
}

/// Every figure and every value, of every plant and contract and of the next that isn't there.
#[test]
fn random_sheets() {
    let mut random = Random(3);
    for _ in 0..5_000 {
        let sheet = sheet(&mut random);
        for i in (0..65).chain([u32::MAX]) {
            assert_eq!(naomhral::why_plant(&sheet, i), plain_reasons::why_plant(&sheet, i));
        }
        for j in (0..257).step_by(7).chain([0, 1, 2, u32::MAX]) {
            assert_eq!(naomhral::why_contract(&sheet, j), plain_reasons::why_contract(&sheet, j));
        }
    }
}
