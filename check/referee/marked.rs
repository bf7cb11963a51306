// The marked examples of the specification, P1 to P12, and those of the two programs, and the examples of order 2: the referee holds its own definitions to them before it writes anything.

use crate::definitions::{dilated, eroded, lines, nested, opened, sums_of_frame, sums_of_line, Direction, Shape};
use crate::texts::{input_text, read, sums_text, Input};

const LINE: [u8; 5] = [3, 5, 5, 2, 4];

/// P1 to P6.
fn windows_hold() -> bool {
    let openings = [(1, LINE), (2, [3, 5, 5, 2, 2]), (3, [3, 3, 3, 2, 2]), (5, [2; 5]), (6, [0; 5])];
    openings.iter().all(|(length, expected)| opened(&LINE, *length) == expected)
        && eroded(&LINE, 2) == [3, 5, 2, 2]
        && dilated(&[3, 5, 2, 2], 2) == [3, 5, 5, 2, 2]
}

/// P7 to P10, each stretch with its encloser's place, and what the program stretches prints of the line.
fn stretches_hold() -> bool {
    nested(&[7]) == [[0, 1, 7, 0, 0]]
        && nested(&[4, 4, 4]) == [[0, 3, 4, 0, 0]]
        && nested(&[1, 2, 3]) == [[2, 3, 3, 2, 1], [1, 3, 2, 1, 2], [0, 3, 1, 0, 2]]
        && nested(&[3, 2, 1]) == [[0, 1, 3, 2, 1], [0, 2, 2, 1, 2], [0, 3, 1, 0, 2]]
        && nested(&LINE) == [[1, 3, 5, 3, 1], [0, 3, 3, 2, 3], [4, 5, 4, 2, 3], [0, 5, 2, 0, 3]]
}

/// P11 and P12, on 4 by 2.
fn lines_hold() -> bool {
    let shape = Shape { width: 4, height: 2, stride: 4 };
    let (down, up) = (lines(shape, Direction { p: 2, q: 1 }), lines(shape, Direction { p: -2, q: 1 }));
    down[&-1] == [(1, 0), (2, 0), (3, 1)] && down[&-2] == [(3, 0)] && up[&1] == [(0, 1), (1, 0), (2, 0)]
}

/// The input of the two programs, and what the program sums prints of it.
fn texts_hold() -> bool {
    let text = "D\t0\nF\t5\t1\nR\t3\t5\t5\t2\t4\n";
    let frame = Input { direction: 0, width: 5, height: 1, pixels: LINE.to_vec() };
    input_text(&frame) == text && read(text.as_bytes()) == Ok(frame) && sums_text(0, &sums_of_frame(&LINE, Shape { width: 5, height: 1, stride: 5 }, Direction { p: 1, q: 0 }, 3)) == "G\t0\t3\nB\t1\t2\nB\t2\t4\nB\t3\t3\nT\t10\n"
}

/// 'L of 21 gives 16 at (1,1), 17 at (4,3), 21 along.'
fn lengths_hold() -> bool {
    let examples = [((1, 1), 16), ((4, 3), 17), ((1, 0), 21), ((0, 1), 21)];
    examples.iter().all(|&((p, q), count)| Direction { p, q }.pixels_for(21) == count)
}

/// All of them.
pub fn hold() -> bool {
    windows_hold() && stretches_hold() && lines_hold() && lengths_hold() && sums_of_line(&LINE, 3) == [2, 4, 3, 10] && texts_hold()
}
