// The texts of the two programs, from their specification alone: what is printed of sums, and what an input holds.
// A line is in its form where it is the very text of its numbers, so that printing and reading have one definition.

/// A frame as the programs' input has it.
#[derive(Clone, Debug, PartialEq)]
pub struct Input {
    pub direction: u64,
    pub width: u64,
    pub height: u64,
    pub pixels: Vec<u8>,
}

/// 'Lines of text, fields parted by one tab, each line ended by a line feed. Numbers are decimal without leading zero'
pub fn line_text(letter: char, numbers: &[u64]) -> String {
    let fields: String = numbers.iter().map(|n| format!("\t{n}")).collect();
    format!("{letter}{fields}\n")
}

/// '`G`, direction, K; `B`, length, sum for each bin; `T`, rest'
pub fn sums_text(direction: u64, sums: &[u64]) -> String {
    let (rest, bins) = sums.split_last().unwrap();
    let head = line_text('G', &[direction, bins.len() as u64]);
    let lines: String = bins.iter().zip(1..).map(|(&bin, length)| line_text('B', &[length, bin])).collect();
    head + &lines + &line_text('T', &[*rest])
}

/// 'Input: `D` and a direction number; `F`, width, height; then one `R` line a row with its pixels; nothing after.'
pub fn input_text(input: &Input) -> String {
    let head = line_text('D', &[input.direction]) + &line_text('F', &[input.width, input.height]);
    let row = |pixels: &[u8]| line_text('R', &pixels.iter().map(|&p| p as u64).collect::<Vec<u64>>());
    head + &input.pixels.chunks(input.width as usize).map(row).collect::<String>()
}

/// The numbers of a line in its form: so many, none above the greatest.
fn numbers_of(line: Option<&&[u8]>, letter: char, count: u64, greatest: u64) -> Option<Vec<u64>> {
    let text = std::str::from_utf8(line?).ok()?;
    let numbers: Vec<u64> = text.trim_end().split('\t').skip(1).filter_map(|field| field.parse().ok()).collect();
    let in_form = line_text(letter, &numbers) == text && numbers.len() as u64 == count && numbers.iter().all(|&n| n <= greatest);
    in_form.then_some(numbers)
}

/// 'Input numbers are 0 to 65,535, pixels to 255 .. At most 65,536 bytes. Checks: size and the two first lines' form (9), width and height (1), direction (2), rows (9).'
/// The frame, or the number of the first broken rule.
pub fn read(text: &[u8]) -> Result<Input, u64> {
    let lines: Vec<&[u8]> = text.split_inclusive(|&byte| byte == b'\n').collect();
    if text.len() > 65536 {
        return Err(9);
    }
    let direction = numbers_of(lines.first(), 'D', 1, 65535).ok_or(9u64)?[0];
    let sides = numbers_of(lines.get(1), 'F', 2, 65535).ok_or(9u64)?;
    let (width, height) = (sides[0], sides[1]);
    if !(1..=4096).contains(&width) || !(1..=4096).contains(&height) {
        return Err(1);
    }
    if direction > 15 {
        return Err(2);
    }
    let rows: Option<Vec<Vec<u64>>> = lines[2..].iter().map(|row| numbers_of(Some(row), 'R', width, 255)).collect();
    let rows = rows.filter(|rows| rows.len() as u64 == height).ok_or(9u64)?;
    Ok(Input { direction, width, height, pixels: rows.concat().iter().map(|&pixel| pixel as u8).collect() })
}
