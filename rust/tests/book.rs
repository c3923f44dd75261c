//! A day's book by the library: the vectors of the repository, cells that are no book's, and the entries of settled hours.
use naomhral::{raw, Book, Entry, Refusal};
use std::fs;
use std::path::Path;

fn file(name: &str) -> Vec<u8> {
    fs::read(Path::new(env!("CARGO_MANIFEST_DIR")).join("../crates").join(name)).unwrap()
}

/// The numbers of a file, from its front.
struct Words<'a>(std::slice::ChunksExact<'a, u8>);

impl Words<'_> {
    fn next(&mut self) -> Option<u32> {
        self.0.next().map(|w| u32::from_le_bytes(w.try_into().unwrap()))
    }

    fn take<const N: usize>(&mut self) -> [u32; N] {
        [(); N].map(|()| self.next().unwrap())
    }
}

#[test]
fn vectors_agree() {
    let (input, expected) = (file("book_vectors/stdin"), String::from_utf8(file("book_vectors/stdout")).unwrap());
    let mut words = Words(input.chunks_exact(4));
    let (mut lines, mut number) = (String::new(), 0);
    while let Some(calls) = words.next() {
        lines += &format!("book {number}\n");
        number += 1;
        let mut book = Book::new();
        for _ in 0..calls {
            let [call, hour, demand, losses, bought, price] = words.take();
            let entry = Entry { demand, losses, bought, price };
            let told = if call == 2 { book.remove(hour) } else { book.enter(hour, entry) };
            let (refusal, place) = told.err().map_or((0, 0), |r| (r.number, r.place));
            let [d, l, b, m] = book.totals();
            lines += &format!("{refusal} {place} {d} {l} {b} {m}\n");
            fresh(&book);
        }
    }
    assert_eq!(lines, expected);
}

/// The totals are a sum over the hours held.
fn fresh(book: &Book) {
    let mut sums = [0u64; 4];
    for entry in (0..24).filter_map(|h| book.hour(h)) {
        let parts = [entry.demand, entry.losses, entry.bought].map(u64::from);
        sums = [sums[0] + parts[0], sums[1] + parts[1], sums[2] + parts[2], sums[3] + parts[2] * u64::from(entry.price)];
    }
    assert_eq!(book.totals(), sums);
}

#[test]
fn cells_that_are_no_books_are_refused() {
    let mut good = [0u64; 124];
    unsafe {
        assert_eq!(raw::naomhral_book_empty(good.as_mut_ptr(), 124), 0);
        assert_eq!(raw::naomhral_book_enter(good.as_mut_ptr(), 124, 3, 5, 1, 4, 7), 0);
    }
    // a part above its total, a total above a day's, a number above its limit, a flag that is none, an empty place with numbers
    for (cell, value) in [(120, 4), (121, 0), (123, 27), (120, 96_000_000_001), (123, u64::MAX), (16, 4_000_000_001), (15, 2), (15, 0)] {
        let mut cells = good;
        cells[cell] = value;
        let before = cells;
        unsafe {
            assert_eq!(raw::naomhral_book_remove(cells.as_mut_ptr(), 124, 3), 11);
            assert_eq!(raw::naomhral_book_enter(cells.as_mut_ptr(), 124, 3, 1, 1, 1, 1), 11);
            assert_eq!(raw::naomhral_book_enter(cells.as_mut_ptr(), 124, 24, 1, 1, 1, 1), 12);
            assert_eq!(raw::naomhral_book_enter(cells.as_mut_ptr(), 124, 3, 1, 1, 1, 1_000_001), 16);
        }
        assert_eq!(cells, before);
    }
    unsafe {
        assert_eq!(raw::naomhral_book_empty(good.as_mut_ptr(), 123), 11);
        assert_eq!(raw::naomhral_book_enter(good.as_mut_ptr(), 123, 24, 1, 1, 1, 1), 11);
        assert_eq!(raw::naomhral_book_remove(good.as_mut_ptr(), 123, 24), 11);
    }
    assert_eq!(good[16], 5);
}

/// The entry of each settled hour of the vectors is its first line and the sum of its bought column, and a book takes it.
#[test]
fn entries_of_settled_hours() {
    let cases = file("hour_vectors/stdin");
    let (mut rest, mut settled, mut book) = (&cases[..], 0u32, Book::new());
    while !rest.is_empty() {
        let (head, behind) = rest.split_at(4);
        let (sheet, behind) = behind.split_at(u32::from_le_bytes(head.try_into().unwrap()) as usize);
        rest = behind;
        let (mut figures, mut money, mut schedule, mut amounts) = ([9; 384], [0; 64], [0; 64], [0; 256]);
        let Ok(summary) = naomhral::settle(sheet, &mut figures, &mut money, &mut schedule, &mut amounts) else { continue };
        let agents = naomhral::read(sheet).unwrap().agents as usize;
        let bought = figures[..6 * agents].chunks_exact(6).map(|line| line[4]).sum();
        let entry = naomhral::entry(sheet, &summary, &figures).unwrap();
        assert_eq!(entry, Entry { demand: summary.demand, losses: summary.losses, bought, price: summary.price });
        assert_eq!(book.enter(settled % 24, entry), Ok(()));
        settled += 1;
    }
    fresh(&book);
    assert!(settled > 100, "{settled} of the sheets settled");
}

#[test]
fn a_refused_hour_has_no_entry() {
    let (sheet, figures, summary) = ([0u8; 32], [0u32; 6], [8u32, 0, 0, 0, 0]);
    let mut answer = [9u32; 6];
    let call = |summary: &[u32], answer: &mut [u32]| unsafe {
        raw::naomhral_entry(
            sheet.as_ptr(),
            sheet.len(),
            summary.as_ptr(),
            summary.len(),
            figures.as_ptr(),
            figures.len(),
            answer.as_mut_ptr(),
            answer.len(),
        )
    };
    assert_eq!((call(&summary, &mut answer[..5]), answer), (11, [9; 6]));
    assert_eq!((call(&summary, &mut answer), answer), (8, [8, 0, 0, 0, 0, 0]));
    assert_eq!((call(&summary[..4], &mut answer), answer), (11, [11, 0, 0, 0, 0, 0]));
    assert_eq!(Book::new().enter(24, Entry { demand: 0, losses: 0, bought: 0, price: 0 }), Err(Refusal::new(12, 24)));
}
