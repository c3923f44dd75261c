//! The C functions' answers: short ones, long ones, and the number that is returned.
mod common;
use common::*;
use naomhral::sheets::Random;
use naomhral::{plain, raw};

/// A call of one of the functions with its last list, the answer.
type Call<'a> = &'a mut dyn FnMut(&mut [u32]) -> u32;

/// With an answer of fewer cells than `cells` the call returns 11 and changes nothing; with more it fills the first ones and keeps
/// the rest, and returns the first. Hands back the answer.
fn answer_of(cells: usize, call: Call) -> Vec<u32> {
    for short in 0..cells {
        let before = lent_u32(short);
        let mut given = before.clone();
        assert_eq!(call(given.list()), 11);
        assert!(given == before);
    }
    let mut first: Option<Vec<u32>> = None;
    for length in [cells, cells + 1, cells + 6] {
        let mut given = lent_u32(length);
        let mut expected = lent_u32(length);
        let number = call(given.list());
        let answer = given.list()[..cells].to_vec();
        assert_eq!(number, answer[0]);
        expected.list()[..cells].copy_from_slice(&answer);
        assert!(given == expected, "cells past the answer changed");
        assert_eq!(*first.get_or_insert(answer.clone()), answer);
    }
    first.unwrap()
}

/// What a refusal's answer is: number, place and zeros.
fn refused(number: u32, place: u32, cells: usize) -> Vec<u32> {
    let mut answer = vec![0; cells];
    answer[0] = number;
    answer[1] = place;
    answer
}

#[test]
fn answers() {
    let mut random = Random(7);
    for _ in 0..3_000 {
        let sheet = sheet(&mut random);
        read(&sheet);
        settle(&mut random, &sheet);
        page(&mut random, &sheet);
    }
}

fn read(sheet: &[u8]) {
    let answer =
        answer_of(6, &mut |answer| unsafe { raw::naomhral_read(sheet.as_ptr(), sheet.len(), answer.as_mut_ptr(), answer.len()) });
    let expected = match plain::read(sheet) {
        Ok(c) => vec![0, 0, c.agents, c.boundaries, c.plants, c.contracts],
        Err(r) => refused(r.number, r.place, 6),
    };
    assert_eq!(answer, expected);
}

fn settle(random: &mut Random, sheet: &[u8]) {
    let room = random.pick(&[0, 3, 64, 64, 64]);
    let lists = (lent_u32(6 * room), lent_i64(room), lent_u32(room), lent_u32(4 * room));
    let (mut f, mut m, mut s, mut a) = lists.clone();
    let expected = match plain::settle(sheet, f.list(), m.list(), s.list(), a.list()) {
        Ok(h) => vec![0, 0, h.price, h.demand, h.losses],
        Err(r) => refused(r.number, r.place, 5),
    };
    let answer = answer_of(5, &mut |answer| {
        let mut given = lists.clone();
        let (figures, money, schedule, amounts) = (given.0.list(), given.1.list(), given.2.list(), given.3.list());
        let number = unsafe {
            raw::naomhral_settle(
                sheet.as_ptr(),
                sheet.len(),
                figures.as_mut_ptr(),
                figures.len(),
                money.as_mut_ptr(),
                money.len(),
                schedule.as_mut_ptr(),
                schedule.len(),
                amounts.as_mut_ptr(),
                amounts.len(),
                answer.as_mut_ptr(),
                answer.len(),
            )
        };
        if answer.len() < 5 || number != 0 {
            assert!(given == lists, "a refusal changed a list");
        } else {
            assert!(given == (f.clone(), m.clone(), s.clone(), a.clone()));
        }
        number
    });
    assert_eq!(answer, expected);
}

fn page(random: &mut Random, sheet: &[u8]) {
    let text = plain::printed(sheet);
    let before = lent_u8(length_near(random, text.len(), 4));
    let mut whole = before.clone();
    let expected = match plain::page(sheet, whole.list()) {
        Ok(length) => vec![0, 0, length as u32],
        Err(r) => refused(r.number, r.place, 3),
    };
    let answer = answer_of(3, &mut |answer| {
        let mut given = before.clone();
        let out = given.list();
        let number = unsafe {
            raw::naomhral_page(sheet.as_ptr(), sheet.len(), out.as_mut_ptr(), out.len(), answer.as_mut_ptr(), answer.len())
        };
        assert!(given == if answer.len() < 3 || number != 0 { before.clone() } else { whole.clone() });
        number
    });
    assert_eq!(answer, expected);
}

#[test]
fn written_answers() {
    let mut random = Random(8);
    for _ in 0..2_000 {
        let mut rows = hour(&mut random);
        for _ in 0..random.below(2) {
            edge(&mut random, &mut rows);
        }
        let lists = rows.lists();
        let room = length_near(&mut random, rows.bytes().len(), 6);
        let before = lent_u8(room);
        let mut whole = before.clone();
        let expected = match plain::write(&lists[0], &lists[1], &lists[2], &lists[3], whole.list()) {
            Ok(length) => vec![0, 0, length as u32],
            Err(r) => refused(r.number, r.place, 3),
        };
        let answer = answer_of(3, &mut |answer| {
            let mut given = before.clone();
            let out = given.list();
            let number = unsafe {
                raw::naomhral_write(
                    lists[0].as_ptr(),
                    lists[0].len(),
                    lists[1].as_ptr(),
                    lists[1].len(),
                    lists[2].as_ptr(),
                    lists[2].len(),
                    lists[3].as_ptr(),
                    lists[3].len(),
                    out.as_mut_ptr(),
                    out.len(),
                    answer.as_mut_ptr(),
                    answer.len(),
                )
            };
            assert!(given == if answer.len() < 3 || number != 0 { before.clone() } else { whole.clone() });
            number
        });
        assert_eq!(answer, expected);
    }
}
