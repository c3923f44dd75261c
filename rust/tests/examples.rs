//! The files of `examples/`, `include/` and `docs/` say the same as the library.
use naomhral::{plain, sheets};
use std::fs;
use std::path::{Path, PathBuf};
use std::process::Command;

const NAMES: [&str; 7] = ["worked-hour", "must-run", "march", "empty-hour", "reasons", "ties", "small-generator"];

fn repository() -> PathBuf {
    Path::new(env!("CARGO_MANIFEST_DIR")).join("..")
}

fn bytes(name: &str) -> Vec<u8> {
    let path = repository().join(name);
    fs::read(&path).unwrap_or_else(|e| panic!("{}: {e}", path.display()))
}

fn text(name: &str) -> String {
    String::from_utf8(bytes(name)).unwrap()
}

#[test]
fn sheets_and_pages() {
    assert_eq!(bytes("examples/worked-hour.sheet"), sheets::worked().bytes());
    assert_eq!(bytes("examples/must-run.sheet"), sheets::must_run().bytes());
    assert_eq!(bytes("examples/march.sheet"), sheets::march().bytes());
    assert_eq!(bytes("examples/empty-hour.sheet"), [0; 32]);
    for name in NAMES {
        let sheet = bytes(&format!("examples/{name}.sheet"));
        assert_eq!(plain::printed(&sheet), text(&format!("examples/{name}.page")), "{name}");
        let mut out = [0; naomhral::PAGE_MOST];
        let length = naomhral::page(&sheet, &mut out).unwrap();
        assert_eq!(out[..length], bytes(&format!("examples/{name}.page")), "{name}");
    }
}

/// The shares, amounts and schedule that document 01 gives for its hour beside the page.
#[test]
fn the_worked_hour_in_full() {
    let (mut figures, mut money, mut schedule, mut amounts) = ([0; 24], [0; 4], [0; 3], [0; 4]);
    let sheet = bytes("examples/worked-hour.sheet");
    let summary = naomhral::settle(&sheet, &mut figures, &mut money, &mut schedule, &mut amounts).unwrap();
    assert_eq!((summary.price, summary.demand, summary.losses), (8000, 1010, 60));
    assert_eq!([0, 6, 12, 18].map(|at| figures[at]), [0, 32, 28, 0]);
    assert_eq!(amounts, [400, 88, 44, 500]);
    assert_eq!(schedule, [700, 310, 0]);
    assert_eq!(money, [2048000, 0, 256000, -2304000]);
}

/// The bytes of the dumps that people read: an offset, then 16 bytes in hexadecimal.
fn dumped(text: &str) -> Vec<u8> {
    let mut found = vec![];
    for line in text.lines() {
        let mut words = line.split_whitespace();
        if words.next().and_then(|w| w.parse().ok()) != Some(found.len()) {
            continue;
        }
        let row: Vec<u8> = words.map_while(|w| u8::from_str_radix(w, 16).ok().filter(|_| w.len() == 2)).collect();
        if row.len() == 16 {
            found.extend(row);
        }
    }
    found
}

#[test]
fn dumps() {
    let sheet = bytes("examples/worked-hour.sheet");
    assert_eq!(dumped(&text("examples/worked-hour.txt")), sheet);
    assert_eq!(dumped(&text("docs/FORMAT.md")), sheet);
    assert_eq!(dumped(&text("examples/must-run.txt")), bytes("examples/must-run.sheet"));
    assert_eq!(dumped(&text("examples/reasons.txt")), bytes("examples/reasons.sheet"));
    assert!(text("docs/USING.md").contains(&text("examples/worked-hour.page")));
    assert!(text("docs/USING.md").contains(&text("examples/must-run.page")));
}

#[test]
fn sizes_of_the_header() {
    let header = text("include/naomhral.h");
    let stated = |name: &str| -> usize {
        let line = header.lines().find(|l| l.split(' ').nth(1) == Some(name)).unwrap_or_else(|| panic!("{name}"));
        line.split(' ').nth(2).unwrap().parse().unwrap()
    };
    assert_eq!(stated("NAOMHRAL_SHEET_MOST"), naomhral::SHEET_MOST);
    assert_eq!(stated("NAOMHRAL_FIGURES_MOST"), naomhral::FIGURES_MOST);
    assert_eq!(stated("NAOMHRAL_MONEY_MOST"), naomhral::AGENTS_MOST);
    assert_eq!(stated("NAOMHRAL_SCHEDULE_MOST"), naomhral::PLANTS_MOST);
    assert_eq!(stated("NAOMHRAL_AMOUNTS_MOST"), naomhral::CONTRACTS_MOST);
    assert_eq!(stated("NAOMHRAL_PAGE_MOST"), naomhral::PAGE_MOST);
    assert_eq!(stated("NAOMHRAL_WEIGHTS_MOST"), naomhral::WEIGHTS_MOST);
    assert_eq!(stated("NAOMHRAL_SHEET_TEXT_MOST"), naomhral::SHEET_TEXT_MOST);
    assert_eq!(stated("NAOMHRAL_STATEMENT_TEXT_MOST"), naomhral::STATEMENT_TEXT_MOST);
}

/// `examples/hour.c` compiles without a warning and prints each sheet's page, then a line of its own.
#[test]
fn the_c_example() {
    let program = Path::new(env!("CARGO_TARGET_TMPDIR")).join("hour");
    let compiled = Command::new("cc")
        .args(["-Wall", "-Wextra", "-Werror", "-O2", "-I"])
        .args([repository().join("include"), repository().join("examples/hour.c"), env!("NAOMHRAL_ARCHIVE").into()])
        .arg("-o")
        .arg(&program)
        .status()
        .expect("cc, the C compiler");
    assert!(compiled.success());
    for (name, status) in NAMES.into_iter().zip([0, 0, 1, 0, 0, 0, 0]) {
        let run = Command::new(&program).arg(repository().join(format!("examples/{name}.sheet"))).output().unwrap();
        let printed = String::from_utf8(run.stdout).unwrap();
        let own = printed.strip_prefix(&text(&format!("examples/{name}.page"))).expect(name);
        assert_eq!(own.lines().count(), 1, "{name}");
        assert_eq!(run.status.code(), Some(status), "{name}");
    }
    // what was settled and could not be written is told by the status
    let full = fs::OpenOptions::new().write(true).open("/dev/full").unwrap();
    let run = Command::new(&program).arg(repository().join("examples/worked-hour.sheet")).stdout(full).output().unwrap();
    assert_eq!(run.status.code(), Some(2));
}
