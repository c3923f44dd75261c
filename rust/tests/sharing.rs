//! The sharing rule asked by itself.
mod common;
use common::*;
use naomhral::sheets::Random;
use naomhral::{fast, plain, Refusal};

type Share = fn(u32, &[u32], &mut [u32]) -> Result<(), Refusal>;

fn number(random: &mut Random) -> u32 {
    match random.below(8) {
        0 => 0,
        1 => 1,
        2 => u32::MAX,
        3 => random.draw() as u32,
        4 => random.range(0, 10),
        5 => random.range(0, 1_000),
        6 => 1 << random.below(32),
        _ => random.range(0, 4_000_000),
    }
}

fn weights(random: &mut Random) -> Vec<u32> {
    let most = random.pick(&[3, 3, 12, 12, 70, 256]);
    let length = match random.below(40) {
        0 => 256,
        1 => 257,
        2 => random.range(258, 700),
        _ => random.range(0, most),
    };
    let one = number(random);
    match random.below(5) {
        0 => vec![one; length as usize],
        1 => (0..length).map(|_| random.pick(&[0, 1, one])).collect(),
        2 => (0..length).map(|_| random.range(0, 20)).collect(),
        _ => (0..length).map(|_| number(random)).collect(),
    }
}

/// The shares sum to the amount, and each is less than 1 from the exact proportion.
fn proportional(amount: u32, weights: &[u32], shares: &[u32]) {
    let total: i128 = weights.iter().map(|&w| w as i128).sum();
    let given: i128 = shares.iter().map(|&s| s as i128).sum();
    assert_eq!(given, if total == 0 { 0 } else { amount as i128 });
    for (&w, &s) in weights.iter().zip(shares) {
        assert!(total == 0 || (s as i128 * total - amount as i128 * w as i128).abs() < total);
    }
}

#[test]
fn sharing_as_plain_does() {
    let mut random = Random(6);
    let mut numbers = [0; 12];
    for n in 0..100_000 {
        let amount = number(&mut random);
        let weights = weights(&mut random);
        let before = lent_u32(length_near(&mut random, weights.len(), 12));
        let mut expected = before.clone();
        let answer = plain::share(amount, &weights, expected.list());
        for (name, share) in [("the library", naomhral::share as Share), ("fast", fast::share)] {
            let mut given = before.clone();
            assert_eq!(share(amount, &weights, given.list()), answer, "{name}, call {n}");
            assert!(given == expected, "{name}, call {n}: the shares differ");
            if answer.is_ok() {
                proportional(amount, &weights, &given.list()[..weights.len()]);
            } else {
                assert!(given == before);
            }
        }
        numbers[answer.err().map_or(0, |r| r.number as usize)] += 1;
    }
    eprintln!("{numbers:?}");
    assert!([0, 2, 11].iter().all(|&i: &usize| numbers[i] >= 100));
}

/// The small cases of document 01.
#[test]
fn small_cases() {
    let cases: [(u32, &[u32], &[u32]); 4] =
        [(10, &[1, 1, 1], &[4, 3, 3]), (1, &[1, 1], &[1, 0]), (7, &[2, 0, 5], &[2, 0, 5]), (5, &[0, 0], &[0, 0])];
    for (amount, weights, expected) in cases {
        let mut out = vec![9; weights.len()];
        naomhral::share(amount, weights, &mut out).unwrap();
        assert_eq!(out, expected);
    }
}
