//! Sheets and statements as text: random texts, whole and damaged, read as the plain version reads them; both round trips; and our own
//! statement read back and checked.
mod common;
use common::*;
use naomhral::sheets::{Random, Rows};
use naomhral::{plain_text, Counts, Fault, Refusal, Unmade, WrongLine};

// ---- texts

/// A row as a line: its word and its numbers, with separators and leading zeros as they come.
fn line(random: &mut Random, plainly: bool, word: &str, numbers: &[String]) -> Vec<u8> {
    let mut text = word.as_bytes().to_vec();
    if !plainly && random.once_in(6) {
        text.splice(0..0, separator(random));
    }
    for number in numbers {
        if plainly {
            text.push(b' ');
            text.extend(number.as_bytes());
            continue;
        }
        text.extend(separator(random));
        let (sign, size) = number.strip_prefix('-').map_or(("", number.as_str()), |size| ("-", size));
        text.extend(sign.as_bytes());
        text.extend(std::iter::repeat_n(b'0', if random.once_in(8) { random.below(30) as usize } else { 0 }));
        text.extend(size.as_bytes());
    }
    if !plainly && random.once_in(6) {
        text.extend(separator(random));
    }
    text
}

fn separator(random: &mut Random) -> Vec<u8> {
    let usual = random.pick(b" ,;\t");
    let more = if random.once_in(5) { random.range(1, 3) } else { 0 };
    let mut found = vec![usual];
    (0..more).for_each(|_| found.push(random.pick(b" ,;\t\r")));
    found
}

/// The lines of each section, mixed with each other, with comments and blank lines between; those of a section stay in order.
fn mixed(random: &mut Random, plainly: bool, sections: Vec<Vec<Vec<u8>>>) -> Vec<u8> {
    let mut sections: Vec<_> = sections.into_iter().map(|lines| lines.into_iter().peekable()).collect();
    let in_order = plainly || random.once_in(3);
    let end: &[u8] = if !plainly && random.once_in(3) { b"\r\n" } else { b"\n" };
    let mut text = vec![];
    loop {
        let left: Vec<usize> = (0..sections.len()).filter(|&s| sections[s].peek().is_some()).collect();
        if left.is_empty() {
            break;
        }
        if !plainly && random.once_in(12) {
            let blank: [&[u8]; 5] = [b"", b" ", b";,\t", b"#", b"# agent 7, and 8"];
            text.extend(random.pick(&blank));
        } else {
            let s = if in_order { left[0] } else { random.pick(&left) };
            text.extend(sections[s].next().unwrap());
        }
        text.extend(end);
    }
    if !plainly && random.once_in(3) {
        text.truncate(text.len().saturating_sub(end.len()));
    }
    text
}

fn spelt<const N: usize>(numbers: [u32; N]) -> Vec<String> {
    numbers.map(|n| n.to_string()).to_vec()
}

fn sheet_lines(random: &mut Random, plainly: bool, rows: &Rows) -> Vec<Vec<Vec<u8>>> {
    vec![
        rows.agents.iter().map(|&kind| line(random, plainly, "agent", &spelt([kind]))).collect(),
        rows.boundaries.iter().map(|&row| line(random, plainly, "boundary", &spelt(row))).collect(),
        rows.plants.iter().map(|&row| line(random, plainly, "plant", &spelt(row))).collect(),
        rows.contracts.iter().map(|&row| line(random, plainly, "contract", &spelt(row))).collect(),
    ]
}

/// The places where a field begins.
fn fields(text: &[u8]) -> Vec<usize> {
    let apart = |i: usize| b" ,;\t\r\n".contains(&text[i]);
    (0..text.len()).filter(|&i| !apart(i) && (i == 0 || apart(i - 1))).collect()
}

fn damage(random: &mut Random, text: &mut Vec<u8>) {
    let at = random.below(text.len() as u64 + 1) as usize;
    let any = random.draw() as u8;
    let byte = random.pick(&[b'0', b'9', b'-', b'#', b' ', b'\n', b'\r', b';', b'x', b'/', b':', any]);
    match random.below(9) {
        0 if at < text.len() => text[at] = byte,
        1 => text.insert(at, byte),
        2 if at < text.len() => drop(text.remove(at)),
        3 => {
            let length = random.below(40).min((text.len() - at) as u64) as usize;
            drop(text.drain(at..at + length));
        }
        4 => text.truncate(at),
        // a number put before another field, at a line's end or elsewhere: too large by one, by far, signed, or one too many
        5 | 6 => {
            let numbers: [&[u8]; 9] = [
                b"7 ",
                b"4294967295 ",
                b"4294967296 ",
                b"99999999999999999999 ",
                b"-1 ",
                b"-",
                b"1,2,3;4 5 6 7 -8 x ",
                b"0",
                b"4x ",
            ];
            let places = fields(text);
            let at = if places.is_empty() { 0 } else { random.pick(&places) };
            text.splice(at..at, random.pick(&numbers).iter().copied());
        }
        // another word before a field
        7 => {
            let words: [&[u8]; 8] = [b"agent ", b"boundary ", b"plant ", b"contract ", b"price ", b"agents ", b"Agent ", b"plan"];
            let places = fields(text);
            let at = if places.is_empty() { 0 } else { random.pick(&places) };
            text.splice(at..at, random.pick(&words).iter().copied());
        }
        // a line once more, or in another place
        _ => {
            let mut lines: Vec<Vec<u8>> = text.split(|&b| b == b'\n').map(|line| line.to_vec()).collect();
            let (from, to) = (random.below(lines.len() as u64) as usize, random.below(lines.len() as u64) as usize);
            let moved = if random.once_in(2) { lines[from].clone() } else { lines.remove(from) };
            lines.insert(to.min(lines.len()), moved);
            *text = lines.join(&b'\n');
        }
    }
}

fn rubbish(random: &mut Random) -> Vec<u8> {
    let length = random.below(60) as usize;
    let usual = b"agent boundary plant contract price 0123456789-,;\t\r\n\n#";
    (0..length).map(|_| if random.once_in(20) { random.draw() as u8 } else { random.pick(usual) }).collect()
}

/// The text of a sheet: about half are whole.
fn sheet_text_drawn(random: &mut Random) -> Vec<u8> {
    if random.once_in(30) {
        return rubbish(random);
    }
    let mut rows = hour(random);
    if random.once_in(3) {
        edge(random, &mut rows);
    }
    if random.once_in(60) {
        crowd(random, &mut rows);
    }
    let plainly = random.once_in(4);
    let sections = sheet_lines(random, plainly, &rows);
    let mut text = mixed(random, plainly, sections);
    if random.once_in(2) {
        (0..random.range(1, 2)).for_each(|_| damage(random, &mut text));
    }
    text
}

fn shown(text: &[u8]) -> String {
    String::from_utf8_lossy(text).into_owned()
}

/// How often each answer was given: 0, the refusals, and the faults from 30 on.
struct Tally([u32; 40]);

impl Tally {
    fn new() -> Tally {
        Tally([0; 40])
    }

    fn fault(&mut self, wrong: WrongLine) {
        self.0[30 + wrong.fault as usize] += 1;
    }

    fn all_given(&self, numbers: &[usize], least: u32) {
        eprintln!("{:?}", self.0);
        for &number in numbers {
            assert!(self.0[number] >= least, "answer {number} was given {} times", self.0[number]);
        }
    }
}

// ---- sheets

#[test]
fn sheets_are_made_as_plain_does() {
    let mut random = Random(31);
    let mut tally = Tally::new();
    let mut scratch = [0; naomhral::SHEET_MOST];
    for n in 0..120_000 {
        let text = sheet_text_drawn(&mut random);
        let size = plain_text::make_sheet(&text, &mut scratch).unwrap_or(32);
        let before = lent_u8(length_near(&mut random, size, 12));
        let (mut expected, mut given) = (before.clone(), before.clone());
        let answer = plain_text::make_sheet(&text, expected.list());
        assert_eq!(naomhral::make_sheet(&text, given.list()), answer, "text {n}: {}", shown(&text));
        assert!(given == expected, "text {n}: the bytes differ: {}", shown(&text));
        match answer {
            Ok(length) => {
                tally.0[0] += 1;
                assert!(naomhral::read(&given.list()[..length]).is_ok(), "text {n}");
            }
            Err(why) => {
                assert!(given == before, "text {n}");
                match why {
                    Unmade::Wrong(wrong) => tally.fault(wrong),
                    Unmade::Refused { refusal, .. } => tally.0[refusal.number as usize] += 1,
                }
            }
        }
    }
    tally.all_given(&[0, 3, 4, 5, 6, 11, 31, 32, 33, 34, 35, 36], 200);
}

/// The text of a sheet, and the sheet again.
#[test]
fn sheets_as_text_and_back() {
    let mut random = Random(32);
    let mut tally = Tally::new();
    let (mut text, mut again) = (vec![0; naomhral::SHEET_TEXT_MOST], [0; naomhral::SHEET_MOST]);
    for n in 0..60_000 {
        let sheet = sheet(&mut random);
        let size = plain_text::sheet_text(&sheet, &mut text).unwrap_or(4);
        let before = lent_u8(length_near(&mut random, size, 12));
        let (mut expected, mut given) = (before.clone(), before.clone());
        let answer = plain_text::sheet_text(&sheet, expected.list());
        assert_eq!(naomhral::sheet_text(&sheet, given.list()), answer, "sheet {n}");
        assert!(given == expected, "sheet {n}: the texts differ");
        match answer {
            Ok(length) => {
                tally.0[0] += 1;
                let made =
                    naomhral::make_sheet(&given.list()[..length], &mut again).unwrap_or_else(|why| panic!("sheet {n}: {why}"));
                assert_eq!(again[..made], sheet, "sheet {n}: the sheet of its text");
            }
            Err(why) => {
                assert!(given == before, "sheet {n}");
                tally.0[why.number as usize] += 1;
            }
        }
    }
    tally.all_given(&[0, 1, 2, 3, 4, 5, 6, 11], 100);
}

// ---- statements

/// Four lists lent, with room as it comes.
#[derive(Clone, Debug, PartialEq)]
struct Stated {
    figures: Lent<u32>,
    money: Lent<i64>,
    schedule: Lent<u32>,
    amounts: Lent<u32>,
}

type Read = fn(&[u8], &Counts, &mut [u32], &mut [i64], &mut [u32], &mut [u32]) -> Result<u32, WrongLine>;

impl Stated {
    fn new(random: &mut Random, counts: &Counts, short_in: u64) -> Stated {
        let mut near = |needed: u32| length_near(random, needed as usize, short_in);
        Stated {
            figures: lent_u32(near(6 * counts.agents)),
            money: lent_i64(near(counts.agents)),
            schedule: lent_u32(near(counts.plants)),
            amounts: lent_u32(near(counts.contracts)),
        }
    }

    fn read(&mut self, with: Read, text: &[u8], counts: &Counts) -> Result<u32, WrongLine> {
        with(text, counts, self.figures.list(), self.money.list(), self.schedule.list(), self.amounts.list())
    }

    fn check(&mut self, sheet: &[u8], price: u32) -> Result<(), Refusal> {
        naomhral::check(sheet, price, self.figures.list(), self.money.list(), self.schedule.list(), self.amounts.list())
    }

    fn settle(&mut self, sheet: &[u8]) -> Result<naomhral::Summary, Refusal> {
        naomhral::settle(sheet, self.figures.list(), self.money.list(), self.schedule.list(), self.amounts.list())
    }
}

/// Our own statement of a sheet, as the plain version writes it, read back: the settled lists, and accepted.
#[test]
fn our_own_statements_are_read_back_and_accepted() {
    let mut random = Random(33);
    let mut tally = Tally::new();
    let mut text = vec![0; naomhral::STATEMENT_TEXT_MOST];
    for n in 0..60_000 {
        let sheet = sheet(&mut random);
        let size = plain_text::statement_text(&sheet, &mut text).unwrap_or(8);
        let before = lent_u8(length_near(&mut random, size, 12));
        let (mut expected, mut given) = (before.clone(), before.clone());
        let answer = plain_text::statement_text(&sheet, expected.list());
        assert_eq!(naomhral::statement_text(&sheet, given.list()), answer, "sheet {n}");
        assert!(given == expected, "sheet {n}: the texts differ");
        let Ok(length) = answer else {
            assert!(given == before, "sheet {n}");
            tally.0[answer.unwrap_err().number as usize] += 1;
            continue;
        };
        tally.0[0] += 1;
        let counts = naomhral::read(&sheet).unwrap();
        let mut read = Stated::new(&mut random, &counts, u64::MAX);
        let mut settled = read.clone();
        let price = read.read(naomhral::read_statement, &given.list()[..length], &counts);
        let summary = settled.settle(&sheet).unwrap();
        assert_eq!(price, Ok(summary.price), "sheet {n}");
        assert!(read == settled, "sheet {n}: what was read is not what was settled");
        assert_eq!(read.check(&sheet, summary.price), Ok(()), "sheet {n}");
    }
    tally.all_given(&[0, 1, 2, 3, 4, 5, 6, 7, 8, 9, 10, 11, 13], 100);
}

/// Money of any size, up to the largest that a text can say and past it.
fn owed(random: &mut Random) -> String {
    let size = match random.below(10) {
        0 => random.pick(&[0, 999_999_999_999_999_999, 1_000_000_000_000_000_000, u64::MAX]),
        1..=3 => random.below(1_000_000_000_000_000_000),
        _ => random.below(10_000),
    };
    format!("{}{size}", random.pick(&["", "", "-"]))
}

/// A statement's text for these counts, with numbers drawn; about half are whole.
fn statement_drawn(random: &mut Random, counts: &Counts) -> Vec<u8> {
    if random.once_in(30) {
        return rubbish(random);
    }
    let plainly = random.once_in(4);
    let figure = |random: &mut Random| if random.once_in(40) { u32::MAX } else { random.range(0, 9_999) };
    let price = figure(random);
    let mut rows = vec![line(random, plainly, "price", &spelt([price]))];
    for n in 0..counts.agents {
        let mut numbers = vec![n.to_string()];
        (0..6).for_each(|_| numbers.push(figure(random).to_string()));
        numbers.push(owed(random));
        rows.push(line(random, plainly, "agent", &numbers));
    }
    for (word, count) in [("plant", counts.plants), ("contract", counts.contracts)] {
        for n in 0..count {
            let cell = figure(random);
            rows.push(line(random, plainly, word, &spelt([n, cell])));
        }
    }
    if random.once_in(2) {
        for i in (1..rows.len()).rev() {
            rows.swap(i, random.below(i as u64 + 1) as usize);
        }
    }
    let mut text = mixed(random, plainly, vec![rows]);
    if random.once_in(2) {
        (0..random.range(1, 2)).for_each(|_| damage(random, &mut text));
    }
    text
}

#[test]
fn statements_are_read_as_plain_does() {
    let mut random = Random(34);
    let mut tally = Tally::new();
    let mut outside = 0;
    for n in 0..150_000 {
        let most = if random.once_in(100) { [64, 64, 256] } else { [4, 5, 5] };
        let [agents, plants, contracts] = most.map(|most| random.range(0, most));
        let mut counts = Counts { agents, boundaries: 0, plants, contracts };
        let text = statement_drawn(&mut random, &counts);
        let before = Stated::new(&mut random, &counts, 40);
        if random.once_in(40) {
            let count = random.pick(&[63, 64, 65, 256, 257, u32::MAX]);
            *[&mut counts.agents, &mut counts.plants, &mut counts.contracts][random.below(3) as usize] = count;
        }
        let (mut expected, mut given) = (before.clone(), before.clone());
        let answer = expected.read(plain_text::read_statement, &text, &counts);
        assert_eq!(given.read(naomhral::read_statement, &text, &counts), answer, "text {n} of {counts:?}: {}", shown(&text));
        assert!(given == expected, "text {n}: the lists differ: {}", shown(&text));
        match answer {
            Ok(_) => tally.0[0] += 1,
            Err(wrong) => {
                assert!(given == before, "text {n}");
                tally.fault(wrong);
                outside += (wrong == WrongLine { line: 0, fault: Fault::Rows }) as u32;
            }
        }
    }
    assert!(outside > 1_000, "lists or counts that don't fit: {outside}");
    tally.all_given(&[0, 31, 32, 33, 34, 35, 36, 37, 38], 1_000);
}

// ---- the C functions' answers

/// An answer list that is too short is refused before all else, and one cell too long keeps its last.
#[test]
fn answers_short_and_long() {
    use naomhral::raw;
    let sheet = naomhral::sheets::worked().bytes();
    let text = b"agent 1\nagent 4\n";
    let (mut out, mut wide) = ([7u8; 400], [7u32; 40]);
    let (mut money, mut schedule, mut amounts) = ([7i64; 4], [7u32; 4], [7u32; 4]);
    for cells in 0..6 {
        let mut call = |which: usize| {
            let mut answer = [7u32; 6];
            // Each pointer is an array's own with its length.
            let number = unsafe {
                match which {
                    0 => raw::naomhral_sheet_text(sheet.as_ptr(), sheet.len(), out.as_mut_ptr(), 9, answer.as_mut_ptr(), cells),
                    1 => raw::naomhral_make_sheet(text.as_ptr(), text.len(), out.as_mut_ptr(), 9, answer.as_mut_ptr(), cells),
                    2 => raw::naomhral_statement_text(sheet.as_ptr(), 9, out.as_mut_ptr(), 400, answer.as_mut_ptr(), cells),
                    _ => raw::naomhral_read_statement(
                        text.as_ptr(),
                        text.len(),
                        4,
                        3,
                        4,
                        wide.as_mut_ptr(),
                        40,
                        money.as_mut_ptr(),
                        4,
                        schedule.as_mut_ptr(),
                        4,
                        amounts.as_mut_ptr(),
                        4,
                        answer.as_mut_ptr(),
                        cells,
                    ),
                }
            };
            (number, answer)
        };
        let told: [&[u32]; 4] = [&[11, 0, 0], &[3, 1, 0, 2], &[1, 0, 0], &[32, 1, 0]];
        for (which, told) in told.into_iter().enumerate() {
            let mut expected = [7; 6];
            let room = told.len() <= cells;
            if room {
                expected[..told.len()].copy_from_slice(told);
            }
            assert_eq!(call(which), (if room { told[0] } else { 11 }, expected), "function {which}, {cells} cells");
        }
    }
    assert_eq!((out, wide, money, schedule, amounts), ([7; 400], [7; 40], [7; 4], [7; 4], [7; 4]));
}
