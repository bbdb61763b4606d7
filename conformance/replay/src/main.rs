//! Asks the original the suite's questions, makes questions, and says which answers are expected.

mod containers;
mod expected;
mod original;
mod questions;
mod random;
mod requests;
mod rules;
mod samples;
mod types;
mod user_types;

use expected::{Expected, ORIGINAL};
use random::Random;
use requests::is_canon;
use std::collections::BTreeMap;
use std::fs;
use std::io::{self, BufRead, BufWriter, Write};
use std::process::ExitCode;

const USAGE: &str =
    "replay stored SEED | random N SEED | answer [all] | rows QUESTIONS ANY-ORDER ROWS DIFFERENCES";

fn main() -> ExitCode {
    // A panic is an answer.
    std::panic::set_hook(Box::new(|_| ()));
    let arguments: Vec<String> = std::env::args().skip(1).collect();
    let arguments: Vec<&str> = arguments.iter().map(|argument| argument.as_str()).collect();
    let done = match arguments.as_slice() {
        ["stored", seed] => seed_of(seed)
            .and_then(|mut random| print_lines(questions::stored_questions(&mut random))),
        ["random", count, seed] => seed_of(seed).and_then(|random| print_random(count, random)),
        ["answer"] => answer_questions(false),
        ["answer", "all"] => answer_questions(true),
        ["rows", questions, any_order, rows, differences] => {
            write_rows(questions, any_order, rows, differences)
        }
        _ => Err(io::Error::other(USAGE)),
    };
    match done {
        Ok(()) => ExitCode::SUCCESS,
        Err(error) => {
            eprintln!("replay: {error}");
            ExitCode::FAILURE
        }
    }
}

fn seed_of(text: &str) -> io::Result<Random> {
    text.parse().map(Random::new).map_err(io::Error::other)
}

fn print_lines(lines: impl IntoIterator<Item = String>) -> io::Result<()> {
    let mut out = BufWriter::new(io::stdout().lock());
    for line in lines {
        writeln!(out, "{line}")?;
    }
    out.flush()
}

fn print_random(count: &str, mut random: Random) -> io::Result<()> {
    let count: u64 = count.parse().map_err(io::Error::other)?;
    print_lines((0..count).map(|_| questions::random_question(&mut random)))
}

/// Answers questions of standard input by the original: all of them, or only those about keys in any order if it was built
/// without `de_strict_order`, and only the others if it was built with it. The answers to the rest are empty lines.
fn answer_questions(all: bool) -> io::Result<()> {
    let mut out = BufWriter::new(io::stdout().lock());
    for question in io::stdin().lock().split(b'\n') {
        let question = String::from_utf8(question?).map_err(io::Error::other)?;
        let answer = if all || is_canon(&question) != cfg!(feature = "strict") {
            original::answer(&question)
        } else {
            String::new()
        };
        writeln!(out, "{answer}")?;
    }
    out.flush()
}

/// Where answers come from, by the name of their source.
const SOURCES: [(&str, &str); 10] = [
    (ORIGINAL, "the original, by conformance/replay/make"),
    (
        "variant-names",
        "the original, where a variant's part is named by its enum, two underscores and the variant",
    ),
    (
        "empty-elements",
        "docs/DIFFERENCES.md: which elements are empty is decided by the encoding",
    ),
    (
        "enum-count",
        "docs/DIFFERENCES.md: the size of an enum is multiplied by the count of a sequence of it",
    ),
    (
        "empty-siblings",
        "docs/DIFFERENCES.md: whether elements have bytes is decided for every definition",
    ),
    (
        "all-counts",
        "docs/DIFFERENCES.md: a length range may be all lengths",
    ),
    (
        "several-faults",
        "the original, which names one of several faults, and the definitions: any may be answered",
    ),
    ("counts", "the definitions; the original doesn't count"),
    (
        "no-schema",
        "the program borsh_check; the original has no such call for these types",
    ),
    (
        "no-command",
        "the program borsh_check; the original has no lines",
    ),
];

/// The sections: kinds of rows, and what they are about.
const SUBJECTS: [(&[&str], &str); 5] = [
    (&["read"], "values of types"),
    (&["canon"], "values with keys in any order"),
    (&["schema"], "greatest sizes and containers of types"),
    (&["check", "size", "counts"], "containers"),
    (&["line"], "lines of the program"),
];

/// Writes a row for each question, and those that the original answers otherwise. Is run where the original is strict; the
/// answers with keys in any order are given.
fn write_rows(questions: &str, any_order: &str, rows: &str, differences: &str) -> io::Result<()> {
    let questions = fs::read_to_string(questions)?;
    let any_order = fs::read_to_string(any_order)?;
    let mut sections: BTreeMap<(usize, usize), String> = BTreeMap::new();
    let mut otherwise = String::new();
    let both = questions
        .split_terminator('\n')
        .zip(any_order.split_terminator('\n'));
    for (question, any_order) in both {
        let strict = original::answer(question);
        // What is refused in order alone is a row of keys in any order.
        let question = if question.starts_with("read\t") && any_order != strict {
            question.replacen("read", "canon", 1)
        } else {
            question.to_string()
        };
        let answer = if is_canon(&question) {
            any_order
        } else {
            &strict
        };
        let expected = Expected::for_question(&question, answer);
        let kind = question.split('\t').next().unwrap_or_default();
        let subject = SUBJECTS.iter().position(|(kinds, _)| kinds.contains(&kind));
        let source = SOURCES
            .iter()
            .position(|(source, _)| expected.source == Some(source));
        let (Some(subject), Some(source)) = (subject, source) else {
            let text = format!("the original answers {answer} to {question}");
            return Err(io::Error::other(text));
        };
        let section = sections.entry((subject, source)).or_default();
        *section += &format!("{question}\t{}", expected.answers.join("\t"));
        if kind == "canon" && expected.source == Some(ORIGINAL) && strict != answer {
            *section += &format!("\t{strict}");
        }
        section.push('\n');
        let reason = SOURCES[source].0;
        if expected.differs(answer) {
            otherwise += &format!("{question}\t{answer}\t{reason}\n");
        }
        // The row says too what strict reading answers.
        if kind == "canon" && reason != ORIGINAL && expected.differs(&strict) {
            let question = question.replacen("canon", "read", 1);
            otherwise += &format!("{question}\t{strict}\t{reason}\n");
        }
    }
    let text: Vec<String> = sections
        .into_iter()
        .map(|((subject, source), rows)| {
            let (source, from) = SOURCES[source];
            format!(
                "# {}: {source}\n# from: {from}\n{rows}",
                SUBJECTS[subject].1
            )
        })
        .collect();
    fs::write(rows, text.join("\n"))?;
    fs::write(differences, otherwise)
}
