// The cases of the texts of the two programs: sums texts, and inputs in their form and out of it.
// An input stands in its case byte by byte; one too long for that goes on as it ends, row after equal row.

use crate::cases::{Case, Cases, READ_INPUT, SUMS_TEXT};
use crate::draw;
use crate::texts::{input_text, line_text, sums_text, Input};

/// The kinds of sums that a case can have.
const KINDS: u64 = 12;

/// What is put into a text, or in the place of one of its bytes: digits, what parts and ends, a carriage return, signs, letters, the bytes next to the digits, and bytes that are no text.
const STRAY: [u8; 13] = [b'0', b'1', b'9', b'\t', b'\n', b'\r', b'-', b' ', b'/', b':', b'R', 0, 255];

/// Fields that are no number of the form, or are out of every range.
const NO_NUMBER: [&str; 14] = ["", "00", "01", "007", "-0", "-1", "+1", " 1", "1 ", "1.0", "0x1", "65536", "99999", "18446744073709551617"];

/// A sums text into a destination that has just its bytes, less or more.
fn sums_fitted(cases: &mut Cases, kind: u64, direction: u64, entries: u64, more: i64) {
    cases.add(Case { call: SUMS_TEXT, kind, length: direction, src: entries, ..Case::default() });
    let case = cases.list.last_mut().unwrap();
    let bytes = sums_text(direction, &draw::sums(entries as usize, kind, case.seed + 2)).len() as u64;
    case.dst = bytes.saturating_add_signed(more);
}

/// Sums of every kind: 1 to 39 bins, about the lengths where a bin's number has a digit more, and 4,095 and 4,096 bins; every direction; every set of broken rules.
pub fn sums_texts(cases: &mut Cases) {
    for kind in 0..KINDS {
        for entries in [2, 3, 4, 5, 10, 11, 12, 33, 40] {
            for more in [0, -1, 5] {
                sums_fitted(cases, kind, (kind + entries) % 16, entries, more);
            }
        }
        for entries in [100, 101, 102, 1000, 1001, 4096, 4097] {
            sums_fitted(cases, kind, kind, entries, (entries % 2) as i64 - 1);
        }
    }
    for direction in 0..16 {
        sums_fitted(cases, 0, direction, 4, 0);
    }
    for direction in [15, 16, 17, 255, 256, 65536, u64::MAX] {
        for entries in [0, 1, 2, 4, 4096, 4097, 4098] {
            for dst in [0, 9, 50000] {
                cases.add(Case { call: SUMS_TEXT, length: direction, src: entries, dst, ..Case::default() });
            }
        }
    }
}

/// An input as it stands.
fn input(cases: &mut Cases, text: impl AsRef<[u8]>, dst: u64) {
    let given = text.as_ref().to_vec();
    let bytes = given.len() as u64;
    cases.add(Case { call: READ_INPUT, width: bytes, src: bytes, dst, given, ..Case::default() });
}

/// A frame of at most `most` pixels a side.
fn drawn_input(cases: &mut Cases, most: u64) -> Input {
    let d = &mut cases.draws;
    let (direction, width, height) = (d.below(16), d.within(1, most), d.within(1, most));
    let (kind, seed) = (d.below(7), d.below(1 << 20));
    Input { direction, width, height, pixels: draw::bytes((width * height) as usize, kind, seed) }
}

/// Small frames in their form, into destinations that just fit, are one byte short, and are longer.
pub fn inputs_whole(cases: &mut Cases) {
    for i in 0..70 {
        let frame = drawn_input(cases, if i < 60 { 4 } else { 9 });
        for dst in [frame.width * frame.height, frame.width * frame.height - 1, frame.width * frame.height + 3] {
            input(cases, input_text(&frame), dst);
        }
    }
}

/// Two inputs with each byte left out, each end cut off, and each stray byte at each place, put in and in the place of another.
pub fn inputs_edited(cases: &mut Cases) {
    for (text, strays) in [("D\t0\nF\t5\t1\nR\t3\t5\t5\t2\t4\n", &STRAY[..]), ("D\t10\nF\t2\t2\nR\t0\t255\nR\t99\t100\n", &STRAY[..6])] {
        let text = text.as_bytes();
        for at in 0..text.len() {
            input(cases, &text[..at], 12);
            input(cases, [&text[..at], &text[at + 1..]].concat(), 12);
            for stray in strays {
                input(cases, [&text[..at], &[*stray], &text[at..]].concat(), 12);
                input(cases, [&text[..at], &[*stray], &text[at + 1..]].concat(), 12);
            }
        }
        for stray in STRAY {
            input(cases, [text, &[stray]].concat(), 12);
        }
    }
}

/// Directions, widths and heights on and about their limits, and fields that are no number in the place of each number of a text.
pub fn inputs_numbers(cases: &mut Cases) {
    for direction in [15, 16, 65535, 65536] {
        for width in [0, 1, 4096, 4097, 65535, 65536] {
            for height in [0, 1, 4096, 4097, 65535, 65536] {
                let head = line_text('D', &[direction]) + &line_text('F', &[width, height]);
                input(cases, head + "R\t7\n", 2);
            }
        }
    }
    for field in NO_NUMBER.iter().chain(&["0", "1", "9", "10", "99", "100", "254", "255", "256", "260", "300", "999", "1000", "2550"]) {
        for place in 0..7 {
            let fields: Vec<&str> = (0..7).map(|i| if i == place { *field } else { ["8", "2", "2", "0", "12", "200", "255"][i] }).collect();
            input(cases, format!("D\t{}\nF\t{}\t{}\nR\t{}\t{}\nR\t{}\t{}\n", fields[0], fields[1], fields[2], fields[3], fields[4], fields[5], fields[6]), 4);
        }
    }
}

/// Every set of broken rules, so that the first of them is seen to answer: form, width, height, direction, rows, destination.
pub fn inputs_refused(cases: &mut Cases) {
    for broken in 0..64u64 {
        let is = |rule: u64| broken >> rule & 1 == 1;
        let letter = if is(0) { 'G' } else { 'F' };
        let (width, height) = (if is(1) { 0 } else { 2 }, if is(2) { 4097 } else { 2 });
        let head = line_text('D', &[if is(3) { 16 } else { 3 }]) + &line_text(letter, &[width, height]);
        let rows = line_text('R', &[1, 2]) + &line_text('R', &[3, if is(4) { 256 } else { 4 }]);
        input(cases, head + &rows, if is(5) { 3 } else { 4 });
    }
    for rows in ["", "R\t1\t2\n", "R\t1\t2\nR\t3\n", "R\t1\t2\nR\t3\t4\t5\n", "R\t1\t2\nR\t3\t4\nR\t5\t6\n", "R\t1\t2\t3\t4\n", "R\t1\nR\t2\t3\t4\n", "R\t1\t2\n\nR\t3\t4\n", "R\t1\t2\nr\t3\t4\n", "R\t1\t2\nR\t3\t4\n\n"] {
        input(cases, format!("D\t3\nF\t2\t2\n{rows}"), 4);
    }
    for head in ["F\t2\t1\nD\t3\n", "D\t3\r\nF\t2\t1\n", "D\t3\nF\t2\t1\r\n", "D\t3\n\nF\t2\t1\n", "D\t3\nF\t2\n", "D\t3\nF\t2\t1\t1\n", "D\nF\t2\t1\n", "D\t3\t3\nF\t2\t1\n", "D 3\nF 2 1\n", "D\t3\tF\t2\t1\n", "\u{feff}D\t3\nF\t2\t1\n"] {
        input(cases, format!("{head}R\t1\t2\n"), 2);
    }
}

/// A frame of equal rows, with `more` bytes of text than its form has and `room` more of destination than its pixels.
fn equal_rows(cases: &mut Cases, direction: u64, row: &[u64], height: u64, more: i64, room: i64) {
    let (head, line) = (line_text('D', &[direction]) + &line_text('F', &[row.len() as u64, height]), line_text('R', row));
    let (period, given) = (line.len() as u64, (head + &line).into_bytes());
    let bytes = given.len() as u64 + (height - 1) * period;
    let dst = (row.len() as u64 * height).saturating_add_signed(room);
    cases.add(Case { call: READ_INPUT, width: given.len() as u64, height: period, src: bytes.saturating_add_signed(more), dst, given, ..Case::default() });
}

/// A row whose line has so many bytes: its digits are dealt out evenly.
fn row_of(width: u64, bytes: u64) -> Vec<u64> {
    let digits = bytes - 2 - width;
    (0..width).map(|x| 10u64.pow((digits / width + (x < digits % width) as u64 - 1) as u32)).collect()
}

/// Sides of 4,096 and 4,097, the most pixels that an input can have, and texts in their form of just 65,536 bytes and of one more.
pub fn inputs_large(cases: &mut Cases) {
    let row = |width: u64| -> Vec<u64> { (0..width).map(|x| x % 10).collect() };
    for (width, more, room) in [(4096, 0, 0), (4096, 0, -1), (4096, -1, 0), (4097, 0, 0)] {
        equal_rows(cases, 5, &row(width), 1, more, room);
    }
    for (width, height) in [(1, 4096), (1, 4097), (7, 4095), (7, 4096), (255, 127), (255, 128)] {
        for (more, room) in [(0, 0), (0, -1), (0, 9), (-1, 0), (1, 0)] {
            equal_rows(cases, 5, &row(width), height, more, room);
        }
    }
    // 14 bytes of head and 362 rows of 181, or 15 and 181 of 362
    for (width, height, row_bytes, bytes) in [(50, 362, 181, 65536), (110, 181, 362, 65537)] {
        for (more, room) in [(0, 0), (0, -1), (-1, 0), (1, 0)] {
            equal_rows(cases, 10, &row_of(width, row_bytes), height, more, room);
            assert_eq!(cases.list.last().unwrap().src, u64::saturating_add_signed(bytes, more));
        }
    }
}
