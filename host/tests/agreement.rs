//! Independent parts of the matcher held against each other and against plain enumeration.

mod common;

use common::{calls, followed};
use satchelram_host::generate::{every, names, random::Random, sheets, texts};
use satchelram_host::matcher::sheet::{read, Node, Tree};
use satchelram_host::matcher::text::{sheet_of, Refusal};
use satchelram_host::matcher::{member, readings};
use std::collections::{BTreeSet, HashMap};

fn tree_of(sheet: &[u8]) -> Tree {
    read(sheet).expect("a valid sheet")
}

/// Is the sequence in the set that the node denotes? By trying every split, with no memory.
fn denotes(tree: &Tree, node: usize, sequence: &[u8]) -> bool {
    let splits = |from: usize| (from..=sequence.len()).map(|at| sequence.split_at(at));
    match tree.nodes()[node] {
        Node::Leaf { position, .. } => sequence == [position],
        Node::Empty => sequence.is_empty(),
        Node::Union(left, right) => denotes(tree, left, sequence) || denotes(tree, right, sequence),
        Node::Cat(left, right) => {
            splits(0).any(|(front, back)| denotes(tree, left, front) && denotes(tree, right, back))
        }
        Node::Star(inner) => {
            sequence.is_empty()
                || splits(1)
                    .any(|(front, back)| denotes(tree, inner, front) && denotes(tree, node, back))
        }
    }
}

/// Has the leaf at every entry the name's byte?
fn spells(tree: &Tree, sequence: &[u8], name: &[u8]) -> bool {
    let byte_at = |entry: u8| {
        tree.nodes().iter().find_map(|node| match *node {
            Node::Leaf { position, byte } if position == entry => Some(byte),
            _ => None,
        })
    };
    let bytes = sequence.iter().map(|&entry| byte_at(entry));
    bytes.eq(name.iter().map(|&byte| Some(byte)))
}

fn positions(tree: &Tree) -> Vec<u8> {
    (1..=tree.leaves() as u8).collect()
}

#[test]
fn readings_are_all_sequences_that_pass_one_by_one() {
    let all_names: Vec<Vec<u8>> = every::words(b"abc", 3).collect();
    for sheet in every::sheets(b"ab", 5) {
        let tree = tree_of(&sheet);
        for name in &all_names {
            let plain: Vec<Vec<u8>> = every::words_of(&positions(&tree), name.len())
                .filter(|sequence| spells(&tree, sequence, name))
                .filter(|sequence| denotes(&tree, tree.root(), sequence))
                .collect();
            assert_eq!(readings::all(&tree, name), plain, "{:?} {:?}", sheet, name);
            assert_eq!(member::accepts(&tree, name), !plain.is_empty());
        }
    }
}

#[test]
fn membership_of_every_sequence_even_of_no_positions() {
    for sheet in every::sheets(b"ab", 5) {
        let tree = tree_of(&sheet);
        let entries: Vec<u8> = (0..=tree.leaves() as u8 + 1).collect();
        for name in every::words(b"ab", 3) {
            let found = readings::all(&tree, &name);
            for given in every::words_of(&entries, name.len()) {
                let listed = found.contains(&given);
                assert_eq!(member::is_reading(&tree, &name, &given), listed);
                let later = found.iter().find(|&reading| *reading > given);
                assert_eq!(readings::after(&tree, &name, &given).as_ref(), later);
            }
        }
    }
}

#[test]
fn first_and_next_walk_through_all() {
    for sheet in every::sheets(b"ab", 6) {
        let tree = tree_of(&sheet);
        for name in every::words(b"ab", 5) {
            let found = readings::all(&tree, &name);
            let first = readings::first(&tree, &name);
            let step = |given: &Vec<u8>| readings::after(&tree, &name, given);
            let walked: Vec<Vec<u8>> = std::iter::successors(first, step).collect();
            assert_eq!(walked, found, "{:?} {:?}", sheet, name);
            assert_eq!(member::accepts(&tree, &name), !found.is_empty());
        }
    }
}

#[test]
fn a_few_are_the_front_of_all() {
    let mut random = Random::new(1);
    for _ in 0..3000 {
        let tree = tree_of(&sheets::sheet(&mut random, b"ab", 14));
        let name = names::name(&mut random, &tree, b"ab", 7);
        let found = readings::all(&tree, &name);
        for most in [0, 1, 2, 5, 1000] {
            let front: Vec<Vec<u8>> = found.iter().take(most).cloned().collect();
            assert_eq!(readings::few(&tree, &name, most), front);
        }
        assert!(found.windows(2).all(|pair| pair[0] < pair[1]));
        let member = |reading: &Vec<u8>| member::is_reading(&tree, &name, reading);
        assert!(found.iter().all(member));
    }
}

/// The two ways to membership on sheets and names of full size.
#[test]
fn large_sheets_and_names() {
    let mut random = Random::new(1);
    let mut matching = 0;
    for _ in 0..60 {
        let tree = tree_of(&sheets::sheet(&mut random, b"ab", 255));
        let name = names::name(&mut random, &tree, b"ab", 255);
        let few = readings::few(&tree, &name, 20);
        assert_eq!(member::accepts(&tree, &name), !few.is_empty());
        assert_eq!(readings::first(&tree, &name).as_ref(), few.first());
        for pair in few.windows(2) {
            assert_eq!(
                readings::after(&tree, &name, &pair[0]).as_ref(),
                Some(&pair[1])
            );
        }
        let member = |reading: &Vec<u8>| member::is_reading(&tree, &name, reading);
        assert!(few.iter().all(member));
        matching += usize::from(!few.is_empty());
    }
    assert!(matching > 20, "{}", matching);
}

// Texts.

/// A fully parenthesised text of a subtree.
fn printed(tree: &Tree, node: usize) -> String {
    let inner = |node| printed(tree, node);
    match tree.nodes()[node] {
        Node::Leaf { byte, .. } => char::from(byte).to_string(),
        Node::Empty => "()".to_string(),
        Node::Cat(left, right) => format!("({})({})", inner(left), inner(right)),
        Node::Union(left, right) => format!("({})|({})", inner(left), inner(right)),
        Node::Star(under) => format!("({})*", inner(under)),
    }
}

#[test]
fn printed_sheets_are_made_again() {
    for sheet in every::sheets(b"ab", 7) {
        let tree = tree_of(&sheet);
        let text = printed(&tree, tree.root());
        assert_eq!(sheet_of(text.as_bytes()), Ok(sheet), "{}", text);
    }
}

/// Every well-formed text of each length with its leaves and nodes, by the grammar
/// alone: what a rule may hold is put together from what shorter ones hold.
#[derive(Default)]
struct Grammar {
    units: Vec<Made>,
    sequences: Vec<Made>,
    alternations: Vec<Made>,
}

/// Texts of one length, each with its leaves and nodes.
type Made = Vec<(Vec<u8>, Vec<u8>, Vec<u8>)>;

const PLAIN: &[u8] = b"a,01";
const SYMBOLS: &[u8] = b"a,01|*()\\{}";

fn literals(length: usize) -> Vec<(Vec<u8>, u8)> {
    match length {
        1 => PLAIN.iter().map(|&byte| (vec![byte], byte)).collect(),
        2 => b"|*()\\{}"
            .iter()
            .map(|&mark| (vec![b'\\', mark], mark))
            .collect(),
        _ => Vec::new(),
    }
}

/// The repeats of five bytes over the digits 0 and 1, with leaf count and nodes.
const REPEATS: [(&[u8], usize, &[u8]); 3] = [
    (b"{0,0}", 0, &[1]),
    (b"{0,1}", 1, &[0, 1, 3]),
    (b"{1,1}", 1, &[0]),
];

impl Grammar {
    fn up_to(most: usize) -> Grammar {
        let mut grammar = Grammar::default();
        for length in 0..=most {
            let units = grammar.new_units(length);
            grammar.units.push(units);
            let sequences = paired(&grammar.sequences, &grammar.units, length, b"", 2);
            grammar.sequences.push(sequences);
            let alternations = paired(&grammar.alternations, &grammar.sequences, length, b"|", 3);
            grammar.alternations.push(alternations);
        }
        grammar
    }

    fn new_units(&self, length: usize) -> Made {
        let mut made: Made = Vec::new();
        for (text, byte) in literals(length) {
            made.push((text, vec![byte], vec![0]));
        }
        for (text, byte) in length.checked_sub(5).map(literals).unwrap_or_default() {
            for (repeat, leaves, nodes) in REPEATS {
                made.push(([&text, repeat].concat(), vec![byte; leaves], nodes.to_vec()));
            }
        }
        if length == 2 {
            made.push((b"()".to_vec(), vec![], vec![1]));
        }
        if length >= 2 {
            for (text, leaves, nodes) in &self.alternations[length - 2] {
                made.push((
                    [b"(", &text[..], b")"].concat(),
                    leaves.clone(),
                    nodes.clone(),
                ));
            }
        }
        if length >= 1 {
            for (text, leaves, nodes) in &self.units[length - 1] {
                made.push((
                    followed(text, b'*', 1),
                    leaves.clone(),
                    followed(nodes, 4, 1),
                ));
            }
        }
        made
    }
}

/// One part alone, or a whole with a sign and one more part to its right.
fn paired(wholes: &[Made], parts: &[Made], length: usize, sign: &[u8], node: u8) -> Made {
    let mut made = parts[length].clone();
    for (left_length, lefts) in wholes.iter().enumerate() {
        let right_length = (length - left_length).checked_sub(sign.len());
        for right in right_length.map_or(&[][..], |right_length| &parts[right_length]) {
            for left in lefts {
                made.push((
                    [&left.0, sign, &right.0].concat(),
                    [&left.1[..], &right.1].concat(),
                    [&left.2[..], &right.2, &[node]].concat(),
                ));
            }
        }
    }
    made
}

fn grammar_map(most: usize) -> HashMap<Vec<u8>, Vec<u8>> {
    let mut map = HashMap::new();
    for (text, leaves, nodes) in Grammar::up_to(most).alternations.into_iter().flatten() {
        let mut sheet = vec![1, leaves.len() as u8];
        sheet.extend(leaves);
        sheet.push(nodes.len() as u8);
        sheet.extend(nodes);
        assert_eq!(
            map.insert(text, sheet),
            None,
            "the grammar reads each text one way"
        );
    }
    map
}

#[test]
fn small_texts_are_made_exactly_by_the_grammar() {
    let map = grammar_map(6);
    let mut made = 0;
    for text in every::words(SYMBOLS, 6) {
        let sheet = sheet_of(&text).ok();
        assert_eq!(sheet.as_ref(), map.get(&text), "{}", common::shown(&text));
        made += usize::from(sheet.is_some());
    }
    assert_eq!(made, map.len());
}

/// What a refusal says of the text before its place, and of that place.
fn assert_first_fault(text: &[u8], refusal: Refusal) {
    let Refusal { number, place } = refusal;
    let before = &text[..place.min(text.len())];
    let earlier = sheet_of(before);
    let here = text.get(place).copied();
    let earlier_is = |numbers: &[u8]| {
        earlier.as_ref().err().map_or(false, |earlier| {
            numbers.contains(&earlier.number) && earlier.place == place
        })
    };
    let fits = match number {
        11 | 19 => !matches!(
            earlier,
            Err(Refusal {
                number: 11 | 19,
                ..
            })
        ),
        12 => earlier_is(&[12, 14]) && here.map_or(true, |byte| b"|*)".contains(&byte)),
        13 => (earlier.is_ok() || earlier_is(&[12])) && here == Some(b')'),
        14 => place == text.len() && closings(text) == 1,
        _ => false,
    };
    assert!(fits, "{} {:?}", common::shown(text), refusal);
}

/// In how many ways an operand and closing parentheses make a text whole.
fn closings(text: &[u8]) -> usize {
    (1..=32)
        .filter(|&times| sheet_of(&followed(&followed(text, b'a', 1), b')', times)).is_ok())
        .count()
}

#[test]
fn small_texts_are_refused_at_their_first_fault() {
    for text in every::words(b"a1,|*()\\{}\x01", 5) {
        if let Err(refusal) = sheet_of(&text) {
            assert_first_fault(&text, refusal);
        }
    }
}

// Sheets.

#[test]
fn small_sheets_are_exactly_the_generated_ones() {
    let generated: BTreeSet<Vec<u8>> = every::sheets(b"a", 4).into_iter().collect();
    let mut passing = 0;
    for bytes in every::words(&[0, 1, 2, 3, 4, b'a'], 7) {
        let passes = read(&bytes).is_ok();
        assert_eq!(passes, generated.contains(&bytes), "{:?}", bytes);
        passing += usize::from(passes);
    }
    let short = generated.iter().filter(|sheet| sheet.len() <= 7).count();
    assert_eq!(passing, short);
}

// Calls.

/// Every number of every call is met, and no input makes one panic.
#[test]
fn calls_answer_everything() {
    let mut random = Random::new(1);
    let mut met: [BTreeSet<u8>; 5] = Default::default();
    for round in 0..40_000 {
        let text = texts::damaged_text(&mut random, b"ab", 1 + round % 512);
        let room = random.below(400);
        met[0].insert(calls::sheet(&text, &random.bytes(room)).number);
        let valid = sheets::sheet(&mut random, b"ab", 12);
        let tree = tree_of(&valid);
        let sheet = match random.below(3) {
            0 => sheets::damaged_sheet(&mut random, b"ab", 12),
            _ => valid,
        };
        let most = if random.one_in(40) { 600 } else { 6 };
        let name = names::name(&mut random, &tree, b"ab", most);
        let length = (name.len() + random.below(8)).saturating_sub(2);
        let mapping = names::mapping(&mut random, &tree, &name, length);
        let length = (64 * (name.len() + 1) + random.below(200)).saturating_sub(40);
        let work = random.bytes(length);
        met[1].insert(calls::accept(&sheet, &name, &work).number);
        met[2].insert(calls::first(&sheet, &name, &mapping, &work).number);
        met[3].insert(calls::next(&sheet, &name, &mapping, &work).number);
        met[4].insert(calls::check(&sheet, &name, &mapping, &work).number);
    }
    let texts = BTreeSet::from([0, 10, 11, 12, 13, 14, 15, 16, 17, 18, 19]);
    let accept = BTreeSet::from([0, 1, 20, 21, 22, 23, 24, 25, 27, 30, 32]);
    let mut first = accept.clone();
    first.insert(31);
    let mut next = first.clone();
    next.insert(33);
    assert_eq!(met, [texts, accept, first.clone(), next, first]);
}
