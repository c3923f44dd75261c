//! A sheet and a statement as text, written out plainly from `docs/FORMAT.md`: lines split, fields split, rows kept with the numbers of
//! their lines. The tests hold the proved library against it. Its functions have the shapes of the wrapper's.

use crate::plain;
use crate::{Counts, Fault, Refusal, Unmade, WrongLine};

// ---- a text

/// The fields of each line, in order: none where it is blank or begins with `#`.
fn lines(text: &[u8]) -> impl Iterator<Item = Vec<&[u8]>> {
    text.split(|&b| b == b'\n').map(|line| {
        if line.first() == Some(&b'#') {
            return vec![];
        }
        line.split(|b| b" \t,;\r".contains(b)).filter(|field| !field.is_empty()).collect()
    })
}

/// The digits without the zeros before them.
fn digits(field: &[u8]) -> Result<&str, Fault> {
    if field.is_empty() || !field.iter().all(u8::is_ascii_digit) {
        return Err(Fault::NotANumber);
    }
    Ok(std::str::from_utf8(field).expect("digits").trim_start_matches('0'))
}

fn number(field: &[u8]) -> Result<u32, Fault> {
    match digits(field)? {
        "" => Ok(0),
        digits => digits.parse().map_err(|_| Fault::TooLarge),
    }
}

/// The eighth number of a line, which may be below 0: up to 18 digits.
fn signed(field: &[u8]) -> Result<i64, Fault> {
    let (sign, size) = match field.strip_prefix(b"-") {
        Some(size) => (-1, size),
        None => (1, field),
    };
    match digits(size)? {
        "" => Ok(0),
        digits if digits.len() > 18 => Err(Fault::TooLarge),
        digits => Ok(sign * digits.parse::<i64>().expect("18 digits")),
    }
}

struct Row {
    word: &'static str,
    numbers: Vec<u32>,
    /// the eighth number, if there is one
    owed: i64,
}

/// A line's row by the words that are known and how many numbers each has: the word first, then each field that is read, then how many
/// there are. A field behind the eighth number is counted, whatever stands in it.
fn row(words: &[(&'static str, usize)], fields: &[&[u8]]) -> Result<Row, Fault> {
    let &(word, wanted) = words.iter().find(|(word, _)| word.as_bytes() == fields[0]).ok_or(Fault::Word)?;
    let fields = &fields[1..];
    let numbers = fields.iter().take(7).map(|field| number(field)).collect::<Result<Vec<u32>, Fault>>()?;
    let owed = fields.get(7).map_or(Ok(0), |field| signed(field))?;
    match fields.len() {
        given if given < wanted => Err(Fault::Few),
        given if given > wanted => Err(Fault::Many),
        _ => Ok(Row { word, numbers, owed }),
    }
}

// ---- a sheet

const SECTIONS: [(&str, usize); 4] = [("agent", 1), ("boundary", 4), ("plant", 5), ("contract", 5)];
const MOST: [usize; 4] = [64, 256, 64, 256];

/// The sheet of a text, or its first line that is wrong, or the refusal of its numbers with the line of the row refused (0: of no row).
pub fn make_sheet(text: &[u8], out: &mut [u8]) -> Result<usize, Unmade> {
    let mut lists: [Vec<u32>; 4] = Default::default();
    let mut lines_of: [Vec<u32>; 4] = Default::default();
    for (i, fields) in lines(text).enumerate() {
        if fields.is_empty() {
            continue;
        }
        let line = i as u32 + 1;
        let wrong = |fault| Unmade::Wrong(WrongLine { line, fault });
        let row = row(&SECTIONS, &fields).map_err(wrong)?;
        let s = SECTIONS.iter().position(|(word, _)| *word == row.word).expect("a word of the list");
        if lines_of[s].len() == MOST[s] {
            return Err(wrong(Fault::Rows));
        }
        lists[s].extend(row.numbers);
        lines_of[s].push(line);
    }
    let [agents, boundaries, plants, contracts] = &lists;
    plain::write(agents, boundaries, plants, contracts, out).map_err(|refusal| {
        let line = match refusal.number {
            3..=6 => lines_of[refusal.number as usize - 3][refusal.place as usize],
            _ => 0,
        };
        Unmade::Refused { line, refusal }
    })
}

fn put(text: &str, out: &mut [u8]) -> Result<usize, Refusal> {
    let Some(front) = out.get_mut(..text.len()) else { return Err(Refusal::new(Refusal::NO_ROOM, 0)) };
    front.copy_from_slice(text.as_bytes());
    Ok(text.len())
}

/// The text of an accepted sheet: refusals 1 to 6, then 11.
pub fn sheet_text(sheet: &[u8], out: &mut [u8]) -> Result<usize, Refusal> {
    let s = plain::open(sheet)?;
    let mut text = String::new();
    for kind in &s.kinds {
        text += &format!("agent {kind}\n");
    }
    for b in &s.boundaries {
        text += &format!("boundary {} {} {} {}\n", b.agent, b.factor, b.import, b.export);
    }
    for p in &s.plants {
        text += &format!("plant {} {} {} {} {}\n", p.agent, p.inflexible, p.must_run, p.price, p.availability);
    }
    for c in &s.contracts {
        text += &format!("contract {} {} {} {} {}\n", c.seller, c.buyer, c.kind, c.price, c.quantity);
    }
    put(&text, out)
}

// ---- a statement

const STATED: [(&str, usize); 4] = [("price", 1), ("agent", 8), ("plant", 2), ("contract", 2)];

/// Our own settlement of a sheet as a statement's text: refusals 1 to 10 and 13, then 11.
pub fn statement_text(sheet: &[u8], out: &mut [u8]) -> Result<usize, Refusal> {
    let hour = plain::hour(sheet)?;
    let mut text = format!("price {}\n", hour.price);
    for (n, l) in hour.lines.iter().enumerate() {
        let figures = [l.share, l.own, l.import, l.contracted, l.bought, l.sold].map(|f| f.to_string()).join(" ");
        text += &format!("agent {n} {figures} {}\n", l.money);
    }
    for (n, scheduled) in hour.schedule.iter().enumerate() {
        text += &format!("plant {n} {scheduled}\n");
    }
    for (n, amount) in hour.amounts.iter().enumerate() {
        text += &format!("contract {n} {amount}\n");
    }
    put(&text, out)
}

/// A statement's text into four lists, by how many agents, plants and contracts its sheet has: each row once, in any order. Hands back
/// the price, or the first line that is wrong and how; a row that is missing is told with the number of lines. Lists that are too short,
/// or more rows than a sheet has, are line 0.
pub fn read_statement(
    text: &[u8],
    counts: &Counts,
    figures: &mut [u32],
    money: &mut [i64],
    schedule: &mut [u32],
    amounts: &mut [u32],
) -> Result<u32, WrongLine> {
    let [agents, plants, contracts] = [counts.agents, counts.plants, counts.contracts].map(|n| n as usize);
    let most = agents <= MOST[0] && plants <= MOST[2] && contracts <= MOST[3];
    if !most || figures.len() < 6 * agents || money.len() < agents || schedule.len() < plants || amounts.len() < contracts {
        return Err(WrongLine { line: 0, fault: Fault::Rows });
    }
    let mut rows: [Vec<Option<Row>>; 4] = [1, agents, plants, contracts].map(|n| (0..n).map(|_| None).collect());
    let mut line = 0;
    for fields in lines(text) {
        line += 1;
        if fields.is_empty() {
            continue;
        }
        let wrong = |fault| WrongLine { line, fault };
        let row = row(&STATED, &fields).map_err(wrong)?;
        let section = STATED.iter().position(|(word, _)| *word == row.word).expect("a word of the list");
        let place = if row.word == "price" { 0 } else { row.numbers[0] as usize };
        let kept = rows[section].get_mut(place).ok_or(wrong(Fault::Rows))?;
        if kept.is_some() {
            return Err(wrong(Fault::Twice));
        }
        *kept = Some(row);
    }
    let rows: Option<Vec<Vec<Row>>> = rows.into_iter().map(|section| section.into_iter().collect()).collect();
    let rows = rows.ok_or(WrongLine { line, fault: Fault::Missing })?;
    for (n, row) in rows[1].iter().enumerate() {
        figures[6 * n..6 * n + 6].copy_from_slice(&row.numbers[1..7]);
        money[n] = row.owed;
    }
    rows[2].iter().zip(schedule).for_each(|(row, cell)| *cell = row.numbers[1]);
    rows[3].iter().zip(amounts).for_each(|(row, cell)| *cell = row.numbers[1]);
    Ok(rows[0][0].numbers[0])
}

#[cfg(test)]
mod tests {
    use super::*;
    use crate::sheets;

    const WORKED: &str = "agent 2\nagent 1\nagent 1\nagent 2\n\
        boundary 0 0 0 600\nboundary 3 0 10 410\nboundary 1 0 500 0\nboundary 2 1000 400 0\n\
        plant 0 0 0 5000 700\nplant 3 0 0 8000 500\nplant 0 1 0 9000 100\n\
        contract 0 1 1 6000 400\ncontract 3 1 3 7000 100\ncontract 0 1 3 7000 50\ncontract 3 2 2 6500 500\n";

    const STATEMENT: &str = "price 8000\nagent 0 0 700 0 444 0 256 2048000\nagent 1 32 532 0 532 0 0 0\n\
        agent 2 28 468 0 500 0 32 256000\nagent 3 0 310 10 588 288 0 -2304000\n\
        plant 0 700\nplant 1 310\nplant 2 0\ncontract 0 400\ncontract 1 88\ncontract 2 44\ncontract 3 500\n";

    fn made(text: &str) -> Result<Vec<u8>, Unmade> {
        let mut out = [0; crate::SHEET_MOST];
        make_sheet(text.as_bytes(), &mut out).map(|length| out[..length].to_vec())
    }

    fn wrong(text: &str) -> (u32, Fault) {
        match made(text) {
            Err(Unmade::Wrong(WrongLine { line, fault })) => (line, fault),
            other => panic!("{text}: {other:?}"),
        }
    }

    #[test]
    fn the_worked_hour() {
        let sheet = sheets::worked().bytes();
        assert_eq!(made(WORKED), Ok(sheet.clone()));
        let mut out = [0; 400];
        let length = sheet_text(&sheet, &mut out).unwrap();
        assert_eq!(std::str::from_utf8(&out[..length]), Ok(WORKED));
        assert_eq!(sheet_text(&sheet, &mut out[..length - 1]), Err(Refusal::new(11, 0)));
        assert_eq!(sheet_text(&sheet[1..], &mut out), Err(Refusal::new(1, 0)));
        assert_eq!(made(""), Ok(vec![0; 32]));
    }

    #[test]
    fn separators_comments_and_orders() {
        let text =
            "# an hour\r\ncontract;0;1,1\t6000  400;\r\n\r\n,agent 2\nboundary,1,000150,07,0\n;;\nagent 01\n\nplant 0 0 0 5 9";
        let rows = sheets::Rows {
            agents: vec![2, 1],
            boundaries: vec![[1, 150, 7, 0]],
            plants: vec![[0, 0, 0, 5, 9]],
            contracts: vec![[0, 1, 1, 6000, 400]],
        };
        assert_eq!(made(text), Ok(rows.bytes()));
    }

    #[test]
    fn the_first_line_that_is_wrong() {
        assert_eq!(wrong("agent 1\n # no comment"), (2, Fault::Word));
        assert_eq!(wrong("\n\nagents x"), (3, Fault::Word));
        assert_eq!(wrong("price 5"), (1, Fault::Word));
        assert_eq!(wrong("agent"), (1, Fault::Few));
        assert_eq!(wrong("agent 1 2"), (1, Fault::Many));
        assert_eq!(wrong("agent 1 2 3 4 5 6 7 -8 ?"), (1, Fault::Many));
        assert_eq!(wrong("agent 1 2 3 4 5 6 7 8- ?"), (1, Fault::NotANumber));
        assert_eq!(wrong("agent 1 -2"), (1, Fault::NotANumber));
        assert_eq!(wrong("plant 4294967295 4294967296"), (1, Fault::TooLarge));
        assert_eq!(wrong("plant 99999999999999999999999x"), (1, Fault::NotANumber));
        assert_eq!(wrong("agent 1.5"), (1, Fault::NotANumber));
        assert_eq!(wrong(&"agent 1\n".repeat(65)), (65, Fault::Rows));
        assert_eq!(wrong(&("agent 1\n".repeat(64) + "agent")), (65, Fault::Few));
    }

    #[test]
    fn rows_that_are_refused() {
        let refused = |line, number, place| Err(Unmade::Refused { line, refusal: Refusal::new(number, place) });
        assert_eq!(made("agent 1\n#\nagent 4"), refused(3, 3, 1));
        assert_eq!(made("plant 0 0 0 0 0\nboundary 0 0 0 0\nagent 1"), refused(1, 5, 0));
        assert_eq!(make_sheet(b"agent 1", &mut [0; 47]), Err(Unmade::Refused { line: 0, refusal: Refusal::new(11, 0) }));
        assert_eq!(make_sheet(b"agent 0", &mut [0; 47]), Err(Unmade::Refused { line: 1, refusal: Refusal::new(3, 0) }));
    }

    fn counts(agents: u32, plants: u32, contracts: u32) -> Counts {
        Counts { agents, boundaries: 0, plants, contracts }
    }

    type Stated = (u32, [u32; 6], [i64; 1], [u32; 2], [u32; 1]);

    /// Read with one agent, two plants and a contract.
    fn stated(text: &str) -> Result<Stated, (u32, Fault)> {
        let (mut f, mut m, mut s, mut a) = ([9; 6], [9; 1], [9; 2], [9; 1]);
        let price = read_statement(text.as_bytes(), &counts(1, 2, 1), &mut f, &mut m, &mut s, &mut a);
        assert!(price.is_ok() || (f, m, s, a) == ([9; 6], [9; 1], [9; 2], [9; 1]));
        Ok((price.map_err(|wrong| (wrong.line, wrong.fault))?, f, m, s, a))
    }

    #[test]
    fn statements() {
        let sheet = sheets::worked().bytes();
        let mut out = [0; 400];
        let length = statement_text(&sheet, &mut out).unwrap();
        assert_eq!(std::str::from_utf8(&out[..length]), Ok(STATEMENT));
        let (mut figures, mut money, mut schedule, mut amounts) = ([0; 24], [0; 4], [0; 3], [0; 4]);
        let price = read_statement(STATEMENT.as_bytes(), &counts(4, 3, 4), &mut figures, &mut money, &mut schedule, &mut amounts);
        assert_eq!((price, money, schedule), (Ok(8000), [2048000, 0, 256000, -2304000], [700, 310, 0]));
        assert_eq!((figures[18..24].to_vec(), amounts), (vec![0, 310, 10, 588, 288, 0], [400, 88, 44, 500]));

        let rows = ["plant 1 5", "contract 0 6", "agent 0 1 2 3 4 5 6 -7", "price 8", "plant 0 4"];
        let whole = rows.join("\n");
        assert_eq!(stated(&whole), Ok((8, [1, 2, 3, 4, 5, 6], [-7], [4, 5], [6])));
        for (i, row) in rows.iter().enumerate() {
            let missing = [&rows[..i], &rows[i + 1..]].concat().join("\n");
            assert_eq!(stated(&missing), Err((4, Fault::Missing)));
            assert_eq!(stated(&(missing + "\n")), Err((5, Fault::Missing)));
            assert_eq!(stated(&format!("{whole}\n\n{row}")), Err((7, Fault::Twice)));
        }
        let last = |row: &str| stated(&format!("{whole}\n{row}")).unwrap_err();
        assert_eq!(last("boundary 0 0 0 0"), (6, Fault::Word));
        assert_eq!(last("plant 2 0"), (6, Fault::Rows));
        assert_eq!(last("agent 0 1 2 3 4 5 6"), (6, Fault::Few));
        assert_eq!(last("agent 0 1 2 3 4 5 6 7 8"), (6, Fault::Many));
        assert_eq!(last("price 1 2"), (6, Fault::Many));
        let money = |owed: &str| stated(&whole.replace("-7", owed)).map(|s| s.2[0]);
        assert_eq!(money("-0"), Ok(0));
        assert_eq!(money("00999999999999999999"), Ok(999_999_999_999_999_999));
        assert_eq!(money("-999999999999999999"), Ok(-999_999_999_999_999_999));
        for (owed, fault) in [("-", Fault::NotANumber), ("--5", Fault::NotANumber), ("-1000000000000000000", Fault::TooLarge)] {
            assert_eq!(money(owed), Err((3, fault)));
        }
    }

    #[test]
    fn lists_of_a_statement_that_are_too_short() {
        let read = |[agents, plants, contracts]: [u32; 3], f: usize, m: usize, s: usize, a: usize| {
            let counts = counts(agents, plants, contracts);
            read_statement(b"?", &counts, &mut [0; 400][..f], &mut [0; 80][..m], &mut [0; 80][..s], &mut [0; 300][..a])
        };
        assert_eq!(read([64, 64, 256], 384, 64, 64, 256), Err(WrongLine { line: 1, fault: Fault::Word }));
        for (f, m, s, a) in [(383, 64, 64, 256), (384, 63, 64, 256), (384, 64, 63, 256), (384, 64, 64, 255)] {
            assert_eq!(read([64, 64, 256], f, m, s, a), Err(WrongLine { line: 0, fault: Fault::Rows }));
        }
        for counts in [[65, 0, 0], [0, 65, 0], [0, 0, 257], [u32::MAX, 0, 0]] {
            assert_eq!(read(counts, 400, 80, 80, 300), Err(WrongLine { line: 0, fault: Fault::Rows }));
        }
    }
}
