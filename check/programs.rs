// The two programs, from their specification alone: what each must print for an input, by the definitions taken literally.
// Runs both on many inputs, whole and in pieces, and compares; then where reads and writes are interrupted or fail (streams.rs): a failed read must leave nothing
// printed, a failed write no more than a part of the right text up to there.
// Usage: programs RUN FILE [LIBRARY], where `RUN NAME` runs the program NAME, FILE may be written, and LIBRARY is made of faults.c.
mod streams;

use streams::{Faults, Ran};

const DIRECTIONS: [(i64, i64); 16] = [
    (1, 0), (4, 1), (2, 1), (4, 3), (1, 1), (3, 4), (1, 2), (1, 4),
    (0, 1), (-1, 4), (-1, 2), (-3, 4), (-1, 1), (-4, 3), (-2, 1), (-4, 1),
];

struct Frame {
    direction: usize,
    width: usize,
    height: usize,
    pixels: Vec<u8>,
}

// A decimal number without leading zero, 0 to `most`.
fn number(field: &[u8], most: u32) -> Option<u32> {
    if field.is_empty() || field.len() > 5 || !field.iter().all(u8::is_ascii_digit) {
        return None;
    }
    if field.len() > 1 && field[0] == b'0' {
        return None;
    }
    let n = field.iter().fold(0, |n, c| 10 * n + u32::from(c - b'0'));
    if n <= most { Some(n) } else { None }
}

// The numbers of a line with this letter.
fn fields(line: &[u8], letter: &[u8], count: usize, most: u32) -> Option<Vec<u32>> {
    let mut parts = line.split(|c| *c == b'\t');
    if parts.next() != Some(letter) {
        return None;
    }
    let numbers: Option<Vec<u32>> = parts.map(|p| number(p, most)).collect();
    numbers.filter(|n| n.len() == count)
}

fn read(input: &[u8]) -> Result<Frame, u32> {
    if input.len() > 65536 {
        return Err(9);
    }
    let mut lines: Vec<&[u8]> = input.split(|c| *c == b'\n').collect();
    let rest = lines.pop().unwrap();
    if lines.len() < 2 {
        return Err(9);
    }
    let d = fields(lines[0], b"D", 1, 65535).ok_or(9u32)?[0] as usize;
    let f = fields(lines[1], b"F", 2, 65535).ok_or(9u32)?;
    let (width, height) = (f[0] as usize, f[1] as usize);
    if !(1..=4096).contains(&width) || !(1..=4096).contains(&height) {
        return Err(1);
    }
    if d > 15 {
        return Err(2);
    }
    if lines.len() != 2 + height || !rest.is_empty() {
        return Err(9);
    }
    let mut pixels = Vec::new();
    for line in &lines[2..] {
        pixels.extend(fields(line, b"R", width, 255).ok_or(9u32)?.iter().map(|v| *v as u8));
    }
    Ok(Frame { direction: d, width, height, pixels })
}

// The lines of a frame: number and pixels, in ascending number.
fn lines(f: &Frame) -> Vec<(i64, Vec<u8>)> {
    let (p, q) = DIRECTIONS[f.direction];
    let s = if (p < 0) != (q < 0) && p != 0 && q != 0 { -1 } else { 1 };
    let (a, b) = (p.abs(), q.abs());
    let mut all = std::collections::BTreeMap::<i64, Vec<u8>>::new();
    let at = |x: usize, y: usize| f.pixels[y * f.width + x];
    if b <= a {
        for x in 0..f.width {
            for y in 0..f.height {
                let r = (2 * x as i64 * b + a) / (2 * a);
                all.entry(y as i64 - s * r).or_default().push(at(x, y));
            }
        }
    } else {
        for y in 0..f.height {
            for x in 0..f.width {
                let r = (2 * y as i64 * a + b) / (2 * b);
                all.entry(x as i64 - s * r).or_default().push(at(x, y));
            }
        }
    }
    all.into_iter().collect()
}

// A line's stretches in their order: start, end, level, base.
fn listed(line: &[u8]) -> Vec<(usize, usize, u8, u8)> {
    let mut list = Vec::new();
    for end in 1..=line.len() {
        let mut level = 255;
        for start in (0..end).rev() {
            level = level.min(line[start]);
            let mut beside = Vec::new();
            if start > 0 {
                beside.push(line[start - 1]);
            }
            if end < line.len() {
                beside.push(line[end]);
            }
            if beside.iter().all(|v| *v < level) {
                list.push((start, end, level, beside.iter().max().copied().unwrap_or(0)));
            }
        }
    }
    list
}

// The place in the list of the shortest other stretch that encloses the one at `place`: starts no later, ends no earlier. None encloses the whole line, which has its own.
fn encloser(list: &[(usize, usize, u8, u8)], place: usize) -> usize {
    let (start, end, ..) = list[place];
    let (mut found, mut shortest) = (place, usize::MAX);
    for (other, &(s, e, ..)) in list.iter().enumerate() {
        if other != place && s <= start && end <= e && e - s < shortest {
            (found, shortest) = (other, e - s);
        }
    }
    found
}

fn stretches(f: &Frame) -> String {
    let mut out = String::new();
    for (k, line) in lines(f) {
        out += &format!("L\t{}\t{}\n", k, line.len());
        let list = listed(&line);
        for (place, (start, end, level, base)) in list.iter().enumerate() {
            out += &format!("Z\t{}\t{}\t{}\t{}\t{}\n", start, end, level, base, encloser(&list, place));
        }
    }
    out
}

// The count of pixels that a length means in a direction: the smallest k from 1 up with (k−1)²·(p²+q²) ≥ (L−1)²·m², m the greater of |p| and |q|.
// For the lengths 1 to 4, of 3 bins and the rest, it is the length itself in each of the sixteen: inputs tell a count that is too small here, but not one that was never taken.
fn pixels_for(direction: usize, length: i64) -> usize {
    let (p, q) = DIRECTIONS[direction];
    let m = p.abs().max(q.abs());
    let mut k = 1;
    while (k - 1) * (k - 1) * (p * p + q * q) < (length - 1) * (length - 1) * m * m {
        k += 1;
    }
    k as usize
}

// The total of a line's pixels opened with windows of `count` pixels.
fn sum_for(line: &[u8], count: usize) -> u64 {
    let mut opened = vec![0; line.len()];
    for window in 0..(line.len() + 1).saturating_sub(count) {
        let darkest = *line[window..window + count].iter().min().unwrap();
        for pixel in &mut opened[window..window + count] {
            *pixel = darkest.max(*pixel);
        }
    }
    opened.iter().map(|v| u64::from(*v)).sum()
}

fn sums(f: &Frame) -> String {
    let all = lines(f);
    let total: Vec<u64> = (1..=4).map(|length| all.iter().map(|(_, line)| sum_for(line, pixels_for(f.direction, length))).sum()).collect();
    let mut out = format!("G\t{}\t3\n", f.direction);
    for i in 0..3 {
        out += &format!("B\t{}\t{}\n", i + 1, total[i] - total[i + 1]);
    }
    out + &format!("T\t{}\n", total[3])
}

fn expected(program: &str, input: &[u8]) -> String {
    match read(input) {
        Err(n) => format!("E\t{}\n", n),
        Ok(f) if program == "stretches" => stretches(&f),
        Ok(f) => sums(&f),
    }
}

struct Noise(u64);

impl Noise {
    fn below(&mut self, n: u64) -> u64 {
        self.0 = self.0.wrapping_mul(6364136223846793005).wrapping_add(1442695040888963407);
        (self.0 >> 33) % n
    }
}

fn text(direction: usize, width: usize, height: usize, pixel: &mut dyn FnMut(usize) -> u64) -> Vec<u8> {
    let mut out = format!("D\t{}\nF\t{}\t{}\n", direction, width, height);
    for y in 0..height {
        out.push('R');
        for x in 0..width {
            out += &format!("\t{}", pixel(y * width + x));
        }
        out.push('\n');
    }
    out.into_bytes()
}

// Pixel i of n: a climb, a fall, a mountain, a valley, a comb, and a saw whose teeth start darker and darker, so that 4,096 pixels have 4,096 stretches.
const NESTS: [fn(usize, usize) -> usize; 6] = [
    |i, n| 256 * i / n,
    |i, n| 255 - 256 * i / n,
    |i, n| 511 * i.min(n - 1 - i) / n,
    |i, n| 255 - 511 * i.min(n - 1 - i) / n,
    |i, _| 255 * (i % 2),
    |i, _| if i % 32 == 0 { 127 - i / 32 } else { 128 + i % 32 },
];

// Frames: the example, every direction with noise and with runs of few levels, single rows and columns, long nests along, across and aslant, and a full input.
fn frames(noise: &mut Noise) -> Vec<Vec<u8>> {
    let mut all = vec![b"D\t0\nF\t5\t1\nR\t3\t5\t5\t2\t4\n".to_vec()];
    for d in 0..16 {
        for levels in [2, 5, 40, 256] {
            let (w, h) = (1 + noise.below(16) as usize, 1 + noise.below(16) as usize);
            all.push(text(d, w, h, &mut |_| noise.below(levels)));
        }
        all.push(text(d, 9, 7, &mut |_| noise.below(3)));
        all.push(text(d, 1, 6, &mut |_| noise.below(4)));
        all.push(text(d, 6, 1, &mut |_| 255 * noise.below(2)));
    }
    all.push(text(0, 4096, 1, &mut |i| i as u64 % 251));
    all.push(text(8, 1, 4096, &mut |i| i as u64 % 7));
    for nest in NESTS {
        all.push(text(0, 4096, 1, &mut |i| nest(i, 4096) as u64));
        all.push(text(8, 1, 4096, &mut |i| nest(i, 4096) as u64));
        all.push(text(14, 90, 50, &mut |i| nest(i % 90, 90) as u64));
    }
    // just 65,536 bytes: 13 of head, 8 rows of 4,000 fields, and 1,507 pixels of two digits
    all.push(text(3, 4000, 8, &mut |i| if i < 1507 { 10 } else { 7 }));
    all
}

// Inputs that are refused, and some at the edge that are not.
fn odd_inputs() -> Vec<Vec<u8>> {
    let mut all: Vec<Vec<u8>> = [
        "", "\n", "D", "D\t0", "D\t0\n", "D\t0\nF\t1\t1", "D\t0\nF\t1\t1\n", "D\t0\nF\t1\t1\nR\t0", "D\t0\nF\t1\t1\nR\t0\n", "D\t0\nF\t1\t1\nR\t255\n",
        "D\t0\nF\t1\t1\nR\t256\n", "D\t0\nF\t1\t1\nR\t00\n", "D\t0\nF\t1\t1\nR\t01\n", "D\t0\nF\t1\t1\nR\t-1\n", "D\t-1\nF\t1\t1\nR\t0\n", "D\t0\nF\t-1\t1\nR\t0\n",
        "D\t00\nF\t1\t1\nR\t0\n", "D\t0\nF\t01\t1\nR\t0\n", "D\t0\nF\t1\t01\nR\t0\n", "D\t0\r\nF\t1\t1\r\nR\t0\r\n", "D\t0\nF\t1\t1\nR\t0\r\n", "D 0\nF 1 1\nR 0\n",
        "D\t\t0\nF\t1\t1\nR\t0\n", "D\t0\t\nF\t1\t1\nR\t0\n", "D\t0\nF\t1\t1\t1\nR\t0\n", "D\t0\nF\t1\nR\t0\n", "d\t0\nF\t1\t1\nR\t0\n", "F\t1\t1\nD\t0\nR\t0\n",
        "D\t65535\nF\t1\t1\nR\t0\n", "D\t65536\nF\t1\t1\nR\t0\n", "D\t15\nF\t1\t1\nR\t0\n", "D\t16\nF\t1\t1\nR\t0\n", "D\t0\nF\t0\t1\nR\n", "D\t0\nF\t1\t0\n",
        "D\t0\nF\t4096\t1\nR\t0\n", "D\t0\nF\t4097\t1\nR\t0\n", "D\t0\nF\t1\t4097\nR\t0\n", "D\t0\nF\t65536\t1\nR\t0\n", "D\t0\nF\t99999999999999999999999\t1\nR\t0\n",
        "D\t0\nF\t1\t1\nR\t0\n\n", "D\t0\nF\t1\t1\nR\t0\nR\t0\n", "D\t0\nF\t1\t1\nR\t0\n ", "D\t0\nF\t1\t2\nR\t0\n", "D\t0\nF\t2\t1\nR\t0\n", "D\t0\nF\t1\t1\nR\t0\t0\n",
        "D\t0\nF\t1\t1\nS\t0\n", "D\t0\nF\t1\t1\nR\t\n", "D\t0\nF\t1\t1\nR\n", "D\t0\nF\t1\t1\nR0\n", "D\t0\nF\t1\t1\n\nR\t0\n", "D\t+1\nF\t1\t1\nR\t0\n",
        // two checks broken: size and form before width and height, these before the direction, and that before the rows
        "D\tx\nF\t0\t1\n", "D\t16\nF\t0\t1\nR\n", "D\t16\nF\t1\t4097\nx", "D\t16\nF\t1\t1\nx", "D\t16\nF\t1\t1\n", "D\t70000\nF\t0\t0\n", "D\t16\nF\t4096\t4096\n", "D\t0\nF\t4096\t4096\n",
    ]
    .iter()
    .map(|s| s.as_bytes().to_vec())
    .collect();
    // one byte too many, as a digit, as a byte behind the last line, and many of them
    all.push(text(3, 4000, 8, &mut |i| if i < 1508 { 10 } else { 7 }));
    let mut longer = text(3, 4000, 8, &mut |i| if i < 1507 { 10 } else { 7 });
    longer.push(b'\n');
    all.push(longer);
    all.push(vec![b'D'; 65536]);
    all.push(vec![b'0'; 300000]);
    all.push(text(16, 4000, 9, &mut |_| 1));
    all
}

// How many runs of each kind there were, and how many of all were not as they must be.
struct Tally {
    kinds: Vec<(&'static str, u32)>,
    wrong: u32,
}

impl Tally {
    fn count(&mut self, kind: &'static str, right: bool, program: &str, input: &[u8], plan: &str) {
        match self.kinds.iter_mut().find(|k| k.0 == kind) {
            Some(k) => k.1 += 1,
            None => self.kinds.push((kind, 1)),
        }
        if !right {
            self.wrong += 1;
            let start = String::from_utf8_lossy(&input[..input.len().min(60)]);
            eprintln!("check/programs: {} {}, {:?}: {}", program, kind, start, &plan[..plan.len().min(200)]);
        }
    }
}

const PROGRAMS: [&str; 2] = ["stretches", "sums"];

fn plain_runs(tally: &mut Tally, run: &str, inputs: &[Vec<u8>]) {
    for (i, input) in inputs.iter().enumerate() {
        for program in PROGRAMS {
            let want = expected(program, input).into_bytes();
            let mut compare = |kind, piece| {
                let ran = streams::in_pieces(run, program, input, piece);
                tally.count(kind, ran.ended() && ran.printed == want, program, input, &format!("pieces of {}", piece));
            };
            compare("with the whole input at once", input.len().max(1));
            if i % 8 == 0 {
                compare("with the input in pieces", 7);
                compare("with the input in pieces", 1);
            }
        }
    }
}

// Streams that cannot be read or written at all: nothing is printed, and the program ends. An emulator opens files of its own, which get the place of what is closed.
fn broken_runs(tally: &mut Tally, run: &str, input: &[u8], emulated: bool) {
    const KIND: &str = "on a closed, full or broken stream";
    for program in PROGRAMS {
        let mut silent = |ran: Ran, which| tally.count(KIND, ran.ended() && ran.printed.is_empty(), program, input, which);
        silent(streams::from_folder(run, program), "input is a folder");
        silent(streams::to_full(run, program, input), "output is full");
        silent(streams::to_nobody_unsignalled(run, program, input), "output that nobody reads, without a signal");
        if !emulated {
            silent(streams::from_closed(run, program), "input is closed");
            silent(streams::to_closed(run, program, input), "output is closed");
        }
        tally.count(KIND, streams::to_nobody(run, program, input).ended_unread(), program, input, "output that nobody reads");
    }
}

// Steps of a plan (faults.c): more than any call moves, and numbers of errors.
const ALL: &str = "1000000";
const EINTR: u32 = 4;
const EIO: u32 = 5;
const EAGAIN: u32 = 11;
const ENOSPC: u32 = 28;
const EPIPE: u32 = 32;

// A program tries a call a million times that is interrupted each time, and no more (docs/DECISIONS.md).
const TRIES: u32 = 1000000;

// Few bytes and many, and interruptions between them, till all is moved.
fn interrupted(noise: &mut Noise) -> String {
    let mut plan = String::new();
    for _ in 0..300 {
        plan += &match noise.below(3) {
            0 => format!("-{}x{} ", EINTR, 1 + noise.below(40)),
            1 => format!("{} ", 1 + noise.below(9)),
            _ => format!("{} ", 1 + noise.below(600)),
        };
    }
    plan + ALL
}

// These steps, then a failure, and then all that is still asked for.
fn failing_after(steps: &[u64], error: u32) -> String {
    let moved: String = steps.iter().filter(|n| **n > 0).map(|n| format!("{} ", n)).collect();
    format!("{}-{} {}", moved, error, ALL)
}

// The same behind fewer than `most` bytes, in steps by chance.
fn failing(noise: &mut Noise, most: usize, error: u32) -> String {
    let (mut steps, mut left) = (Vec::new(), noise.below(most as u64));
    while left > 0 {
        steps.push(1 + noise.below(left));
        left -= steps[steps.len() - 1];
    }
    failing_after(&steps, error)
}

// Reads and writes by plans: interrupted and short ones change nothing, a failed read leaves nothing printed, and behind a failed write nothing follows.
fn planned_runs(tally: &mut Tally, run: &str, faults: &Faults, input: &[u8], noise: &mut Noise) {
    let read = input.len().min(65536);
    for program in PROGRAMS {
        let want = expected(program, input).into_bytes();
        let mut plans = vec![(interrupted(noise), ALL.into()), (ALL.into(), interrupted(noise)), (interrupted(noise), interrupted(noise)), ("1".into(), "1".into())];
        if read < input.len() {
            // it is known to be too long before the read that would fail
            plans.push((failing_after(&[65537], EIO), ALL.into()));
        }
        for (reads, writes) in plans {
            let ran = faults.planned(run, program, input, &reads, &writes);
            tally.count("with interrupted and short reads and writes", ran.ended() && ran.printed == want, program, input, &format!("{}; {}", reads, writes));
        }
        for reads in [failing_after(&[], EIO), failing(noise, read + 1, EIO), failing(noise, read + 1, EAGAIN), failing_after(&[read as u64], EIO)] {
            let ran = faults.planned(run, program, input, &reads, ALL);
            tally.count("with a failing read", ran.ended() && ran.printed.is_empty(), program, input, &reads);
        }
        // at last a write that takes nothing
        for writes in [failing_after(&[], ENOSPC), failing(noise, want.len(), ENOSPC), failing(noise, want.len(), EPIPE), failing(noise, want.len(), 0)] {
            let ran = faults.planned(run, program, input, ALL, &writes);
            let part = want.starts_with(&ran.printed) && ran.printed.len() < want.len();
            tally.count("with a failing write", ran.ended() && part, program, input, &writes);
        }
    }
}

// One interruption fewer than a program bears, and as many.
fn interrupted_runs(tally: &mut Tally, run: &str, faults: &Faults, input: &[u8]) {
    for program in PROGRAMS {
        for (interruptions, want) in [(TRIES - 1, expected(program, input)), (TRIES, String::new())] {
            let plan = format!("-{}x{} {}", EINTR, interruptions, ALL);
            for (reads, writes) in [(plan.as_str(), ALL), (ALL, plan.as_str())] {
                let ran = faults.planned(run, program, input, reads, writes);
                tally.count("with a million tries", ran.ended() && ran.printed == want.as_bytes(), program, input, &plan);
            }
        }
    }
}

fn main() {
    let words: Vec<String> = std::env::args().collect();
    let run = words.get(1).expect("usage: programs RUN FILE [LIBRARY]");
    let emulated = !cfg!(target_arch = "x86_64");
    let mut noise = Noise(1);
    let mut inputs = frames(&mut noise);
    let full = inputs.len() - 1;
    assert_eq!(inputs[full].len(), 65536);
    inputs.extend(odd_inputs());
    let (empty, longer) = (full + 1, inputs.len() - 5);
    assert_eq!((inputs[empty].len(), inputs[longer].len()), (0, 65537));
    let mut tally = Tally { kinds: Vec::new(), wrong: 0 };
    plain_runs(&mut tally, run, &inputs);
    broken_runs(&mut tally, run, &inputs[0], emulated);
    broken_runs(&mut tally, run, &inputs[full], emulated);
    let mut left_out = if emulated { vec!["streams that are closed, under an emulator"] } else { Vec::new() };
    if let Some(library) = words.get(3) {
        let faults = Faults { library: library.clone(), file: words[2].clone() };
        for i in (0..inputs.len()).filter(|i| i % 16 == 0 || [full, empty, longer, inputs.len() - 2].contains(i)) {
            planned_runs(&mut tally, run, &faults, &inputs[i], &mut noise);
        }
        interrupted_runs(&mut tally, run, &faults, &inputs[0]);
    } else {
        left_out.push("interrupted, short and failing reads and writes, for which no compiler made faults.c");
    }
    for what in left_out {
        println!("check/programs: left out here: {}", what);
    }
    let kinds: Vec<String> = tally.kinds.iter().map(|(kind, runs)| format!("{} {}", runs, kind)).collect();
    println!("check/programs: runs: {}; {} differ", kinds.join(", "), tally.wrong);
    std::process::exit(if tally.wrong == 0 { 0 } else { 1 });
}
