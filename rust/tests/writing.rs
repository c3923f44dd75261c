//! Writing sheets from random lists, and both round trips.
mod common;
use common::*;
use naomhral::sheets::{Random, Rows};
use naomhral::{plain, Refusal};

type Write = fn(&[u32], &[u32], &[u32], &[u32], &mut [u8]) -> Result<usize, Refusal>;

fn write(with: Write, [agents, boundaries, plants, contracts]: &[Vec<u32>; 4], out: &mut Lent<u8>) -> Result<usize, Refusal> {
    with(agents, boundaries, plants, contracts, out.list())
}

/// The fields of an accepted sheet, as writing takes them.
fn fields(sheet: &[u8]) -> [Vec<u32>; 4] {
    let s = plain::open(sheet).unwrap_or_else(|r| panic!("{r}"));
    [
        s.kinds,
        s.boundaries.iter().flat_map(|b| [b.agent, b.factor, b.import, b.export]).collect(),
        s.plants.iter().flat_map(|p| [p.agent, p.inflexible, p.must_run, p.price, p.availability]).collect(),
        s.contracts.iter().flat_map(|c| [c.seller, c.buyer, c.kind, c.price, c.quantity]).collect(),
    ]
}

/// Lists of which about half are a sheet's.
fn lists(random: &mut Random) -> [Vec<u32>; 4] {
    let mut rows: Rows = hour(random);
    for _ in 0..random.below(3) {
        edge(random, &mut rows);
    }
    let mut lists = rows.lists();
    if random.once_in(8) {
        let s = random.below(4) as usize;
        let any = random.draw() as u32;
        let length = match random.below(3) {
            0 => lists[s].len() + random.range(1, 4) as usize,
            1 => lists[s].len().saturating_sub(random.range(1, 4) as usize),
            _ => [64, 256 * 4, 64 * 5, 256 * 5][s] + random.range(0, 5) as usize,
        };
        let value = random.pick(&[0, 1, any]);
        lists[s].resize(length, value);
    }
    lists
}

#[test]
fn writing_as_plain_does() {
    let mut random = Random(4);
    let mut numbers = [0; 12];
    for n in 0..40_000 {
        let lists = lists(&mut random);
        let rows = lists[0].len() + lists[1].len() / 4 + lists[2].len() / 5 + lists[3].len() / 5;
        let before = lent_u8(length_near(&mut random, 32 + 16 * rows, 12));
        let mut expected = before.clone();
        let answer = write(plain::write, &lists, &mut expected);
        let mut given = before.clone();
        assert_eq!(write(naomhral::write, &lists, &mut given), answer, "lists {n}");
        assert!(given == expected, "lists {n}: the bytes differ");
        match answer {
            Err(r) => {
                assert!(given == before);
                numbers[r.number as usize] += 1;
            }
            Ok(length) => {
                numbers[0] += 1;
                let sheet = &given.list()[..length];
                let counts = naomhral::read(sheet).unwrap();
                assert_eq!(counts.agents as usize, lists[0].len());
                assert_eq!(counts.contracts as usize * 5, lists[3].len());
                assert_eq!(fields(sheet), lists, "lists {n}: read back");
            }
        }
    }
    eprintln!("{numbers:?}");
    for number in [0, 2, 3, 4, 5, 6, 11] {
        assert!(numbers[number] >= 100, "answer {number} was given {} times", numbers[number]);
    }
}

/// An accepted sheet, taken apart and written again, is the same bytes.
#[test]
fn accepted_sheets_written_again() {
    let mut random = Random(5);
    let mut accepted = 0;
    for n in 0..30_000 {
        let sheet = sheet(&mut random);
        if naomhral::read(&sheet).is_err() {
            continue;
        }
        accepted += 1;
        let mut out = lent_u8(sheet.len());
        assert_eq!(write(naomhral::write, &fields(&sheet), &mut out), Ok(sheet.len()), "sheet {n}");
        assert_eq!(out.list(), &sheet[..], "sheet {n}");
    }
    assert!(accepted > 10_000);
}
