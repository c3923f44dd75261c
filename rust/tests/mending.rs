//! Mending by the library: the vectors of the repository by the C function, and what the wrapper hands back.
use naomhral::raw;
use std::fs;
use std::path::Path;

fn file(name: &str) -> Vec<u8> {
    fs::read(Path::new(env!("CARGO_MANIFEST_DIR")).join("../crates/mend_vectors").join(name)).unwrap()
}

fn word(bytes: &mut &[u8]) -> usize {
    let (front, rest) = bytes.split_at(4);
    *bytes = rest;
    u32::from_le_bytes(front.try_into().unwrap()) as usize
}

/// The lines that a case has to have, and the copy; the lent lists keep what was not to be written.
fn mended(sheet: &[u8], room: usize, changes: usize) -> (String, Vec<u8>) {
    let (mut copy, mut report, mut answer) = (vec![165u8; room], vec![0xa5a5_a5a5u32; 3 * changes], [0u32; 4]);
    let number = unsafe {
        raw::naomhral_mend(
            sheet.as_ptr(),
            sheet.len(),
            copy.as_mut_ptr(),
            copy.len(),
            report.as_mut_ptr(),
            report.len(),
            answer.as_mut_ptr(),
            3,
        )
    };
    assert_eq!((number, answer[3]), (answer[0], 0));
    let (bytes, cells) = if number == 0 { (sheet.len(), 3 * answer[2] as usize) } else { (0, 0) };
    assert!(copy[bytes..].iter().all(|&b| b == 165) && report[cells..].iter().all(|&c| c == 0xa5a5_a5a5));
    if number != 0 {
        return (format!("refused {} {}\n", answer[0], answer[1]), Vec::new());
    }
    let mut lines = format!("mended {}\n", answer[2]);
    let mut original = copy[..bytes].to_vec();
    for change in report[..cells].chunks_exact(3) {
        lines += &format!("{} {} {}\n", change[0], change[1], change[2]);
        assert_eq!(original[change[0] as usize], change[2] as u8);
        original[change[0] as usize] = change[1] as u8;
    }
    assert_eq!(original, sheet, "copy and report give the sheet back");
    (lines, copy[..bytes].to_vec())
}

#[test]
fn vectors_agree() {
    let (input, expected) = (file("stdin"), String::from_utf8(file("stdout")).unwrap());
    let mut rest = &input[..];
    let (mut lines, mut case) = (String::new(), 0);
    while !rest.is_empty() {
        let length = word(&mut rest);
        let (sheet, behind) = rest.split_at(length);
        rest = behind;
        let (room, changes) = (word(&mut rest), word(&mut rest));
        let (told, copy) = mended(sheet, room, changes);
        lines += &format!("case {case}\n{told}");
        case += 1;
        again(sheet, &copy);
    }
    assert_eq!(lines, expected);
}

/// The wrapper, which always has room: mending what was mended changes nothing.
fn again(sheet: &[u8], copy: &[u8]) {
    let Ok((mended, changes)) = naomhral::mend(sheet) else { return };
    assert!(copy.is_empty() || copy == mended);
    assert_eq!(changes.len(), mended.iter().zip(sheet).filter(|(a, b)| a != b).count());
    assert_eq!(naomhral::mend(&mended), Ok((mended.clone(), Vec::new())));
}

#[test]
fn an_answer_too_short_is_refused_first() {
    let (mut copy, mut report, mut answer) = ([7u8; 64], [7u32; 3], [7u32; 2]);
    let number = unsafe {
        raw::naomhral_mend([0u8; 3].as_ptr(), 3, copy.as_mut_ptr(), 64, report.as_mut_ptr(), 3, answer.as_mut_ptr(), 2)
    };
    assert_eq!((number, copy, report, answer), (11, [7; 64], [7; 3], [7; 2]));
}
