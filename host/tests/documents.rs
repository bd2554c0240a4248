//! The examples of docs/: each is run as it stands there. Their answers were derived by hand from document 01.

mod common;

use common::{calls, garbage, GARBAGE, SHEET_MOST};
use satchelram_host::matcher::calls::{work_needed, Outcome};
use satchelram_host::matcher::listing::listing;
use std::collections::BTreeSet;
use std::path::Path;

fn document(name: &str) -> String {
    let path = Path::new(env!("CARGO_MANIFEST_DIR"))
        .join("../docs")
        .join(name);
    std::fs::read_to_string(&path).unwrap_or_else(|error| panic!("{}: {}", path.display(), error))
}

// PACKING and ANSWERS: blocks of keys and values between "```call" and "```".

struct Example {
    line: usize,
    fields: Vec<(String, String)>,
}

fn examples(name: &str) -> Vec<Example> {
    let mut found = Vec::new();
    let mut open: Option<Example> = None;
    for (index, text) in document(name).lines().enumerate() {
        if text == "```call" {
            let fields = Vec::new();
            open = Some(Example {
                line: index + 1,
                fields,
            });
        } else if text == "```" {
            found.extend(open.take());
        } else if let Some(example) = &mut open {
            let (key, value) = text.split_once(' ').expect("a key and a value");
            example
                .fields
                .push((key.to_string(), value.trim().to_string()));
        }
    }
    assert!(open.is_none(), "{}: the last example has no end", name);
    found
}

impl Example {
    fn field(&self, key: &str) -> Option<&str> {
        let found = self.fields.iter().find(|(own, _)| own == key);
        found.map(|(_, value)| value.as_str())
    }

    fn needed(&self, key: &str) -> &str {
        let value = self.field(key);
        value.unwrap_or_else(|| panic!("the example at line {} has no {}", self.line, key))
    }

    /// A buffer of garbage, of so many bytes as the example says, or else as many as usual.
    fn room(&self, key: &str, usual: usize) -> Vec<u8> {
        let said = self
            .field(key)
            .and_then(|value| value.strip_suffix(" bytes"));
        garbage(said.map_or(usual, number))
    }

    /// The mapping as positions, or as garbage.
    fn mapping(&self, usual: usize) -> Vec<u8> {
        match self.field("mapping") {
            Some(value) if !value.ends_with(" bytes") => positions(value),
            _ => self.room("mapping", usual),
        }
    }

    fn run(&self) -> Outcome {
        if self.needed("call") == "sheet" {
            return calls::sheet(&bytes(self.needed("text")), &self.room("room", SHEET_MOST));
        }
        let (sheet, name) = (bytes(self.needed("sheet")), bytes(self.needed("name")));
        let mapping = self.mapping(name.len());
        let work = self.room("work", work_needed(name.len()));
        match self.needed("call") {
            "accept" => calls::accept(&sheet, &name, &work),
            "first" => calls::first(&sheet, &name, &mapping, &work),
            "next" => calls::next(&sheet, &name, &mapping, &work),
            "check" => calls::check(&sheet, &name, &mapping, &work),
            call => panic!("no call {}", call),
        }
    }
}

fn number(value: &str) -> usize {
    value
        .parse()
        .unwrap_or_else(|_| panic!("{} is no number", value))
}

fn positions(value: &str) -> Vec<u8> {
    value.split(',').map(|entry| number(entry) as u8).collect()
}

/// Pieces with plus signs between them, each with its times.
fn bytes(value: &str) -> Vec<u8> {
    if value == "empty" {
        return Vec::new();
    }
    if let Some(text) = value.strip_prefix("sheet of ") {
        let outcome = calls::sheet(&bytes(text), &[0; SHEET_MOST]);
        assert_eq!(outcome.number, 0, "{}", value);
        return outcome.sheet[..outcome.second].to_vec();
    }
    value.split(" + ").flat_map(piece).collect()
}

fn piece(value: &str) -> Vec<u8> {
    let (once, times) = match value.rsplit_once(" x ") {
        Some((once, times)) => (once, number(times)),
        None => (value, 1),
    };
    let quoted = once
        .strip_prefix('`')
        .and_then(|rest| rest.strip_suffix('`'));
    let hexadecimal = |pair| u8::from_str_radix(pair, 16).unwrap_or_else(|_| panic!("{}", value));
    match quoted {
        Some(literal) => literal.as_bytes().repeat(times),
        None => once
            .split(' ')
            .map(hexadecimal)
            .collect::<Vec<u8>>()
            .repeat(times),
    }
}

/// Runs the example and holds it to its answer; gives the number.
fn held(example: &Example) -> u8 {
    let outcome = example.run();
    let answer = example.needed("answer");
    let expected = match (
        answer.split_once(", place "),
        answer.split_once(", length "),
    ) {
        (Some((first, second)), _) | (_, Some((first, second))) => (number(first), number(second)),
        _ => (number(answer), 0),
    };
    let given = (usize::from(outcome.number), outcome.second);
    assert_eq!(given, expected, "the example at line {}", example.line);
    if let Some(packed) = example.field("packed") {
        assert_eq!(
            outcome.packed(),
            number(packed) as u64,
            "line {}",
            example.line
        );
    }
    left(example, &outcome);
    outcome.number
}

/// Holds what a call left to what the example gives, or to zeros.
fn left(example: &Example, outcome: &Outcome) {
    let (buffer, call) = match example.needed("call") {
        "sheet" => (&outcome.sheet, "sheet"),
        "check" | "accept" => return,
        call => (&outcome.mapping, call),
    };
    let mut gives = match example.field("gives") {
        Some(value) if call == "sheet" => bytes(value),
        Some(value) => positions(value),
        None if outcome.number == 0 => return,
        None => Vec::new(),
    };
    gives.resize(buffer.len(), 0);
    assert_eq!(*buffer, gives, "the example at line {}", example.line);
    assert!(outcome.number == 0 || !buffer.contains(&GARBAGE));
}

#[test]
fn packing_examples() {
    let all = examples("PACKING.md");
    assert!(all.len() >= 4);
    for example in &all {
        example.needed("packed");
        held(example);
    }
}

#[test]
fn answers_examples() {
    let answered: BTreeSet<u8> = examples("ANSWERS.md").iter().map(held).collect();
    let all = [0, 1].into_iter().chain(10..=25).chain([27]).chain(30..=33);
    assert_eq!(answered, all.collect());
}

/// Every number has a heading with its name in the C header.
#[test]
fn answers_headings() {
    let header = std::fs::read_to_string(
        Path::new(env!("CARGO_MANIFEST_DIR")).join("../include/satchelram.h"),
    )
    .expect("the header");
    let document = document("ANSWERS.md");
    for number in [0, 1].into_iter().chain(10..=27).chain(30..=33) {
        let start = format!("## {} `", number);
        let heading = document.lines().find_map(|line| line.strip_prefix(&start));
        let name = heading
            .and_then(|rest| rest.split('`').next())
            .unwrap_or_else(|| panic!("no heading {}", number));
        let defined = format!("#define SATCHELRAM_{} {}u ", name, number);
        assert!(header.contains(&defined), "{}", defined);
    }
}

// MANUAL: a command for the listing program, an empty line, what it prints.

const COMMAND: &str = "    printf '%s\\n' '";

/// The expression and the name of a command.
fn command(line: &str) -> Option<(String, String)> {
    let rest = line.strip_prefix(COMMAND)?;
    let words = rest
        .strip_suffix("' | ./list")
        .and_then(|rest| rest.split_once("' '"));
    let (expression, name) = words.unwrap_or_else(|| panic!("no command: {}", line));
    Some((expression.to_string(), name.to_string()))
}

/// Expression, name and printed lines of each example.
fn listings(name: &str) -> Vec<(String, String, String)> {
    let document = document(name);
    let mut lines = document.lines().peekable();
    let mut found = Vec::new();
    while let Some(line) = lines.next() {
        if let Some((expression, name)) = command(line) {
            assert_eq!(lines.next(), Some(""), "{}", line);
            let mut printed = String::new();
            while let Some(line) = lines.next_if(|line| line.starts_with("    ")) {
                printed += &line[4..];
                printed += "\n";
            }
            found.push((expression, name, printed));
        }
    }
    found
}

/// What the listing program prints, by the calls under test.
fn listed(expression: &[u8], name: &[u8]) -> String {
    let made = calls::sheet(expression, &[0; SHEET_MOST]);
    if made.number != 0 {
        return format!("refused {} at {}\n", made.number, made.second);
    }
    let sheet = &made.sheet[..made.second];
    let (leaves, work) = (usize::from(sheet[1]), garbage(work_needed(name.len())));
    let mut printed = format!("leaves {} nodes {}\n", leaves, sheet[2 + leaves]);
    let mut outcome = calls::first(sheet, name, &garbage(name.len()), &work);
    let mut count = 0;
    while outcome.number == 0 {
        let entries: Vec<String> = outcome.mapping.iter().map(u8::to_string).collect();
        printed += &(entries.join(",") + "\n");
        outcome = calls::next(sheet, name, &outcome.mapping, &work);
        count += 1;
    }
    printed + &format!("end {}\n", count)
}

#[test]
fn manual_examples() {
    let all = listings("MANUAL.md");
    assert!(all.len() > 15);
    for (expression, name, printed) in all {
        let input = format!("{}\n{}\n", expression, name);
        assert_eq!(listing(input.as_bytes()), printed, "{}", input);
        assert_eq!(
            listed(expression.as_bytes(), name.as_bytes()),
            printed,
            "{}",
            input
        );
    }
}
