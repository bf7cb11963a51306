// The independent second program: it computes from the specification alone, by naive definitions, what the library must hand back and leave in its buffers.
//
//   referee cases                      writes the cases of crates/vectors, a line each (crates/vectors/stdin)
//   referee answers                    writes what crates/vectors must print of them (crates/vectors/stdout)
//   referee list-cases, list-answers   the same for check/listing
//   referee counts                     writes how many cases each call has, and how many of them each rule refuses
//
// `check/vectors` runs it and compares; docs/REFEREE.md says what is compared.

#[path = "referee/answers.rs"]
mod answers;
#[path = "referee/cases.rs"]
mod cases;
#[path = "referee/definitions.rs"]
mod definitions;
#[path = "referee/draw.rs"]
mod draw;
#[path = "referee/highest_cases.rs"]
mod highest_cases;
#[path = "referee/marked.rs"]
mod marked;
#[path = "referee/refusals.rs"]
mod refusals;
#[path = "referee/slanted_cases.rs"]
mod slanted_cases;
#[path = "referee/text_cases.rs"]
mod text_cases;
#[path = "referee/texts.rs"]
mod texts;

use std::io::Write;

fn counts(all: &[cases::Case]) -> Vec<String> {
    let numbered: Vec<(u64, String)> = all.iter().zip(1..).map(|(c, n)| (c.call, answers::answer(n, c))).collect();
    let of_call = |(call, name): &(u64, &str)| {
        let answers: Vec<&str> = numbered.iter().filter(|a| a.0 == *call).map(|a| a.1.split('\t').nth(1).unwrap()).collect();
        let by_number: Vec<String> = (0..12)
            .map(|n| (n, answers.iter().filter(|a| **a == n.to_string()).count()))
            .filter(|&(_, count)| count > 0)
            .map(|(n, count)| format!("{n}: {count}"))
            .collect();
        format!("{name}\t{}\t{}", answers.len(), by_number.join(", "))
    };
    cases::CALLS.iter().map(of_call).collect()
}

fn main() {
    assert!(marked::hold(), "the referee's definitions miss a marked example");
    let text = |cases: Vec<cases::Case>| cases.iter().map(|c| c.text()).collect();
    let answers = |cases: Vec<cases::Case>| cases.iter().zip(1..).map(|(c, n)| answers::answer(n, c)).collect();
    let lines: Vec<String> = match std::env::args().nth(1).as_deref() {
        Some("cases") => text(cases::families()),
        Some("answers") => answers(cases::families()),
        Some("list-cases") => text(cases::listings()),
        Some("list-answers") => answers(cases::listings()),
        Some("counts") => counts(&cases::families()),
        _ => {
            eprintln!("usage: referee cases|answers|list-cases|list-answers|counts");
            std::process::exit(2);
        }
    };
    let mut out = std::io::BufWriter::new(std::io::stdout());
    for line in lines {
        writeln!(out, "{line}").expect("cannot write");
    }
}
