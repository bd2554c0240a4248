//! One word for each number: the C header's are final, and the matcher and the library's own code have the same.

use std::collections::BTreeMap;
use std::path::Path;

fn text(path: &str) -> String {
    let path = Path::new(env!("CARGO_MANIFEST_DIR")).join(path);
    std::fs::read_to_string(&path).unwrap_or_else(|error| panic!("{}: {}", path.display(), error))
}

/// Names and values of the lines `prefix NAME separator VALUE end`, where the value is a number.
fn named(text: &str, prefix: &str, separator: &str, end: &str) -> BTreeMap<String, usize> {
    let value = |line: &str| {
        let (name, rest) = line.strip_prefix(prefix)?.split_once(separator)?;
        let digits = rest.split_once(end)?.0;
        Some((name.to_string(), digits.parse().ok()?))
    };
    text.lines().filter_map(value).collect()
}

/// The header's numbers: `#define SATCHELRAM_TEXT_LONG 10u ..`.
fn header_numbers() -> BTreeMap<String, usize> {
    let header = text("../include/satchelram.h");
    let numbers = named(&header, "#define SATCHELRAM_", " ", "u ");
    assert_eq!(numbers.len(), 24, "{:?}", numbers);
    numbers
}

#[test]
fn the_matcher_has_the_headers_numbers() {
    let limits = text("src/matcher/limits.rs");
    let mut numbers = named(&limits, "pub const ", ": u8 = ", ";");
    numbers.retain(|name, _| name != "FORM" && !name.starts_with("NODE_"));
    assert_eq!(numbers, header_numbers());
}

#[test]
fn the_matcher_has_the_headers_bounds() {
    let limits = text("src/matcher/limits.rs");
    let bounds = named(&limits, "pub const ", ": usize = ", ";");
    let header = text("../include/satchelram.h");
    let most = named(&header, "#define SATCHELRAM_", "_MOST ", " ");
    assert_eq!(most.len(), 6, "{:?}", most);
    for (name, value) in most {
        let name = name + "_MOST";
        assert_eq!(bounds.get(&name), Some(&value), "{}", name);
    }
}

/// A variant's name as the header spells it: `TextLong` is `TEXT_LONG`.
fn spelled(variant: &str) -> String {
    let mut word = String::new();
    for letter in variant.chars() {
        if letter.is_ascii_uppercase() && !word.is_empty() {
            word.push('_');
        }
        word.push(letter.to_ascii_uppercase());
    }
    word
}

/// The library's constants have the header's words and numbers, and none is missing.
#[test]
fn the_library_has_the_headers_words() {
    let rules = text("../crates/rules/src/lib.rt");
    let mut words = named(&rules, "pub const ", ": usize = ", ";");
    words.retain(|name, _| !name.ends_with("_LIMIT") && !name.ends_with("_SIZE"));
    words.extend(named(&rules, "pub const ", ": u64 = ", ";"));
    assert_eq!(words, header_numbers());
}

/// Each fault of a text and of a sheet is given by the constant of its own name, and no number of theirs has none.
#[test]
fn the_faults_have_the_constants_of_their_names() {
    let mut faults = Vec::new();
    for path in ["../crates/rules/src/lib.rt", "../crates/sheet/src/lib.rt"] {
        for line in text(path).lines() {
            let given = line
                .strip_suffix(" as isize,")
                .and_then(|line| line.split_once(" = "));
            let Some((variant, constant)) = given else {
                continue;
            };
            let constant = constant.strip_prefix("rules::").unwrap_or(constant);
            assert_eq!(spelled(variant.trim()), constant);
            faults.push(header_numbers()[constant]);
        }
    }
    faults.sort();
    assert_eq!(faults, (10..=27).collect::<Vec<usize>>());
}

/// The header's version is that of this package and of the newest release in CHANGELOG.md.
#[test]
fn one_version() {
    let header = text("../include/satchelram.h");
    let start = "#define SATCHELRAM_VERSION \"";
    let version = header.lines().find_map(|line| line.strip_prefix(start));
    let version = version.and_then(|rest| rest.strip_suffix('"'));
    assert_eq!(version, Some(env!("CARGO_PKG_VERSION")));
    let changes = text("../CHANGELOG.md");
    let mut sections = changes.lines().filter_map(|line| line.strip_prefix("## "));
    assert_eq!(sections.find(|title| *title != "Unreleased"), version);
}

#[cfg(feature = "archive")]
#[test]
fn the_archive_has_the_version() {
    let parts = env!("CARGO_PKG_VERSION").split('.');
    let parts: Vec<u64> = parts.map(|part| part.parse().expect("a number")).collect();
    let number = 1_000_000 * parts[0] + 1_000 * parts[1] + parts[2];
    assert_eq!(satchelram_host::archive::version(), number);
}
