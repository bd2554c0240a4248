//! The points decided where document 01 is silent, and the rules of its tables, each as typed cases.

mod common;

use common::*;
use satchelram_host::matcher::listing::listing;
use satchelram_host::matcher::sheet;

// Texts.

#[test]
fn repeat_after_a_literal_only() {
    assert_eq!(sheet_of(b"a{1,1}"), [1, 1, b'a', 1, 0]);
    assert_eq!(sheet_of(b"\\*{1,1}"), [1, 1, b'*', 1, 0]);
    assert_refused(b"a{1,1}{1,1}", 19, 6);
    assert_refused(b"(a){1,2}", 19, 3);
    assert_refused(b"(){1,2}", 19, 2);
    assert_refused(b"a|{1,2}", 19, 2);
    assert_refused(b"({1,2})", 19, 1);
    assert_refused(b"{1,2}", 19, 0);
}

#[test]
fn repeat_by_its_letter() {
    assert_eq!(sheet_of(b"a{01,02}"), sheet_of(b"a{1,2}"));
    assert_eq!(sheet_of(b"a{00,0}"), sheet_of(b"()"));
    let malformed: [&[u8]; 14] = [
        b"a{",
        b"a{}",
        b"a{1}",
        b"a{1,",
        b"a{1,}",
        b"a{,1}",
        b"a{,}",
        b"a{1,2",
        b"a{1 ,2}",
        b"a{1,2,3}",
        b"a{001,2}",
        b"a{1,100}",
        b"a{+1,2}",
        b"a{2,1}",
    ];
    for text in malformed {
        assert_refused(text, 19, 1);
    }
    // A fault between the braces counts at the opening one.
    assert_refused(b"a{1,\x01}", 19, 1);
    assert_refused(b"a{1\\,2}", 19, 1);
    assert_refused(b"\\|{2,1}", 19, 2);
}

#[test]
fn brace_that_may_not_stand_there() {
    assert_refused(b"(a){", 19, 3);
    assert_refused(b"*{\x01", 19, 1);
    assert_refused(b"}", 19, 0);
    assert_refused(b"a}", 19, 1);
    assert_refused(b"a{1,2}}", 19, 6);
}

#[test]
fn bytes_on_both_sides() {
    assert_eq!(sheet_of(b" ~"), [1, 2, 0x20, 0x7E, 3, 0, 0, 2]);
    for byte in [0x00, 0x0A, 0x1F, 0x7F, 0x80, 0xFF] {
        assert_refused(&[b'a', byte], 11, 1);
    }
}

#[test]
fn backslash() {
    let all = sheet_of(b"\\|\\*\\(\\)\\\\\\{\\}");
    assert_eq!(all[..9], *b"\x01\x07|*()\\{}");
    assert_refused(b"\\a", 11, 0);
    assert_refused(b"\\ ", 11, 0);
    assert_refused(b"\\\x01", 11, 0);
    assert_refused(b"\\\xFF", 11, 0);
    assert_refused(b"a\\", 11, 1);
    assert_refused(b"\\\\\\", 11, 2);
}

#[test]
fn order_of_text_refusals() {
    assert_refused(b")\x01", 11, 1);
    assert_refused(b"){", 19, 1);
    assert_refused(b"a}\x01", 19, 1);
    assert_refused(b"a\x01}", 11, 1);
    assert_refused(b"a|)", 13, 2);
    assert_refused(b"(a|)", 12, 3);
    assert_refused(b"(|a)", 12, 1);
    assert_refused(b"(*a)", 12, 1);
    assert_refused(b"a||b", 12, 2);
    assert_refused(b"*", 12, 0);
    assert_refused(b"a|", 12, 2);
    assert_refused(b"a)*", 13, 1);
    assert_refused(b"(", 14, 1);
    assert_refused(b"((", 14, 2);
    assert_refused(b"(()", 14, 3);
    assert_refused(b"(a))(", 13, 3);
    // The bounds come after the whole walk.
    assert_refused(b"a{99,99}b{22,22})", 13, 16);
    assert_refused(b"a{0,65}|", 12, 8);
    // 16 before 17.
    assert_refused(b"a{0,99}b{0,22}", 16, 7);
}

#[test]
fn text_length_on_both_sides() {
    // 512 bytes pass the first test and meet a later one.
    assert_refused(&followed(b"", b'a', 512), 16, 120);
    assert_refused(&followed(b"", b'a', 513), 10, 512);
    assert_refused(&followed(b"\x01", b'a', 512), 10, 512);
    // 104 leaves and 103 concatenations in exactly 512 bytes.
    let mut longest = b"((a))".repeat(102);
    longest.extend(b"aa");
    assert_eq!(longest.len(), 512);
    assert_eq!(nodes_of(&longest).len(), 207);
    assert_refused(&followed(&longest, b'a', 1), 10, 512);
}

#[test]
fn empty_words() {
    assert_eq!(sheet_of(b"(())"), [1, 0, 1, 1]);
    assert_eq!(sheet_of(b"((()))"), [1, 0, 1, 1]);
    assert_eq!(sheet_of(b"()*"), [1, 0, 2, 1, 4]);
    assert_eq!(sheet_of(b"()()"), [1, 0, 3, 1, 1, 2]);
    assert_eq!(sheet_of(b"()|()"), [1, 0, 3, 1, 1, 3]);
}

fn nested(depth: usize, inside: &[u8]) -> Vec<u8> {
    let mut text = followed(b"", b'(', depth);
    text.extend(inside);
    followed(&text, b')', depth)
}

#[test]
fn open_parentheses_on_both_sides() {
    assert_eq!(sheet_of(&nested(32, b"a")), [1, 1, b'a', 1, 0]);
    assert_refused(&nested(33, b"a"), 15, 32);
    assert_eq!(sheet_of(&nested(31, b"()")), [1, 0, 1, 1]);
    assert_refused(&nested(32, b"()"), 15, 32);
    assert_refused(&nested(32, b"a()"), 15, 33);
    // Open at once, not in all.
    assert_eq!(nodes_of(&b"(a)".repeat(40)).len(), 79);
    // The walk ends at the first fault, whatever follows.
    assert_refused(&followed(b"", b'(', 40), 15, 32);
    assert_refused(&followed(b"", b'(', 32), 14, 32);
}

#[test]
fn leaves_counted_by_literal() {
    assert_eq!(sheet_of(&followed(b"", b'a', 120))[1], 120);
    assert_refused(&followed(b"", b'a', 121), 16, 120);
    assert_eq!(sheet_of(b"a{99,99}b{21,21}c{0,0}")[1], 120);
    assert_refused(b"a{99,99}b{21,21}c{0,0}d", 16, 22);
    assert_refused(b"a{99,99}\\*{22,22}", 16, 8);
    assert_refused(b"a{99,99}b{22,22}c", 16, 8);
    // Optional copies are leaves too.
    assert_refused(b"a{0,99}b{0,99}", 16, 7);
}

#[test]
fn repeats_written_out() {
    assert_eq!(sheet_of(b"a{0,0}"), [1, 0, 1, 1]);
    assert_eq!(sheet_of(b"a{0,1}"), [1, 1, b'a', 3, 0, 1, 3]);
    assert_eq!(nodes_of(b"a{0,2}"), [0, 1, 3, 0, 1, 3, 2]);
    assert_eq!(nodes_of(b"a{1,2}"), [0, 0, 1, 3, 2]);
    assert_eq!(nodes_of(b"a{2,3}"), [0, 0, 2, 0, 1, 3, 2]);
    assert_eq!(nodes_of(b"a{3,3}"), [0, 0, 2, 0, 2]);
    // One chain from the left, not the copies beside a chain of the optional ones.
    assert_eq!(nodes_of(b"a{1,3}"), [0, 0, 1, 3, 2, 0, 1, 3, 2]);
    assert_eq!(nodes_of(b"a{1,1}*"), [0, 4]);
    // One unit: not taken apart by what stands beside it, and starred whole.
    assert_eq!(nodes_of(b"ba{2,2}"), [0, 0, 0, 2, 2]);
    assert_eq!(nodes_of(b"a{2,2}*"), [0, 0, 2, 4]);
    assert_eq!(sheet_of(b"ba{2,2}c")[..6], [1, 4, b'b', b'a', b'a', b'c']);
}

#[test]
fn precedence() {
    assert_eq!(nodes_of(b"ab*"), [0, 0, 4, 2]);
    assert_eq!(nodes_of(b"a|bc"), [0, 0, 0, 2, 3]);
    assert_eq!(nodes_of(b"ab|c"), [0, 0, 2, 0, 3]);
    assert_eq!(nodes_of(b"a|b|c"), [0, 0, 3, 0, 3]);
    assert_eq!(nodes_of(b"a|(b|c)"), [0, 0, 0, 3, 3]);
    assert_eq!(nodes_of(b"(ab)*c"), [0, 0, 2, 4, 0, 2]);
    assert_eq!(nodes_of(b"a**"), [0, 4, 4]);
}

#[test]
fn sheet_buffer_on_both_sides() {
    let exact = calls::sheet(b"ab", &garbage(8));
    assert_eq!((exact.number, exact.second), (0, 8));
    assert_eq!(exact.sheet, [1, 2, b'a', b'b', 3, 0, 0, 2]);
    let short = calls::sheet(b"ab", &garbage(7));
    assert_eq!((short.number, short.second), (18, 8));
    assert_eq!(short.sheet, [0; 7]);
    let none = calls::sheet(b"ab", &[]);
    assert_eq!((none.number, none.second), (18, 8));
    // Every other text refusal comes first, and empties the buffer too.
    let refused = calls::sheet(b"a{0,65}", &garbage(7));
    assert_eq!((refused.number, refused.second), (17, 7));
    assert_eq!(refused.sheet, [0; 7]);
}

#[test]
fn packed_numbers() {
    assert_eq!(calls::sheet(b"ab", &garbage(8)).packed(), 8 * 256);
    assert_eq!(calls::sheet(b"ab", &garbage(7)).packed(), 18 + 8 * 256);
    let long = followed(b"", b'a', 513);
    assert_eq!(calls::sheet(&long, &[]).packed(), 10 + 512 * 256);
    let sheet = sheet_of(b"a");
    assert_eq!(calls::accept(&sheet, b"b", &work_for(b"b")).packed(), 1);
    assert_eq!(calls::accept(&sheet, b"a", &[]).packed(), 32);
}

// Sheets.

/// The number of a sheet by all four name calls, each with everything else in order.
fn number_of(sheet: &[u8]) -> u8 {
    let (name, mapping) = (b"a", garbage(3));
    let work = work_for(name);
    let accepted = calls::accept(sheet, name, &work);
    let others = [
        calls::first(sheet, name, &mapping, &work),
        calls::next(sheet, name, &mapping, &work),
        calls::check(sheet, name, &mapping, &work),
    ];
    if accepted.number >= 20 {
        for other in &others {
            assert_eq!(other.number, accepted.number);
            assert_eq!(other.work, work);
        }
        assert_eq!(accepted.work, work);
        assert_eq!(others[0].mapping, [0; 3]);
        assert_eq!(others[1].mapping, [0; 3]);
        assert_eq!(others[2].mapping, mapping);
    }
    accepted.number
}

#[test]
fn sheets_one_by_one() {
    assert_eq!(number_of(&[1, 1, b'a', 1, 0]), 0);
    assert_eq!(number_of(&[]), 20);
    assert_eq!(number_of(&[0, 1, b'a', 1, 0]), 20);
    assert_eq!(number_of(&[2, 1, b'a', 1, 0]), 20);
    assert_eq!(number_of(&[1]), 21);
    assert_eq!(number_of(&[1, 0]), 21);
    assert_eq!(number_of(&[1, 5, b'a']), 21);
    assert_eq!(number_of(&[1, 1, b'a']), 21);
    assert_eq!(number_of(&[1, 1, b'a', 1]), 21);
    assert_eq!(number_of(&[1, 1, b'a', 1, 0, 0]), 21);
    assert_eq!(number_of(&[1, 0, 0]), 25);
    assert_eq!(number_of(&[1, 1, 0x1F, 1, 0]), 23);
    assert_eq!(number_of(&[1, 1, 0x7F, 1, 0]), 23);
    assert_eq!(number_of(&[1, 1, b'a', 2, 0, 5]), 23);
    assert_eq!(number_of(&[1, 0, 1, 4]), 24);
    assert_eq!(number_of(&[1, 1, b'a', 2, 0, 2]), 24);
    assert_eq!(number_of(&[1, 1, b'a', 2, 0, 3]), 24);
    assert_eq!(number_of(&[1, 2, b'a', b'a', 2, 0, 0]), 25);
    assert_eq!(number_of(&[1, 0, 1, 0]), 27);
    assert_eq!(number_of(&[1, 1, b'a', 1, 1]), 27);
    // Leaf bytes may be marks, and the bounds of their range.
    for byte in [b'*', b'{', b'\\', 0x20, 0x7E] {
        assert_eq!(number_of(&[1, 1, byte, 1, 0]), 1);
    }
}

#[test]
fn sheets_by_order() {
    // 20 before 21, 21 before 22, 22 before 23.
    assert_eq!(number_of(&[0, 1]), 20);
    assert_eq!(number_of(&sheet::write(&[b'a'; 121], &[])), 22);
    assert_eq!(number_of(&sheet::write(&[1; 121], &[9])), 22);
    let mut long = sheet::write(&[b'a'; 121], &[]);
    long.push(0);
    assert_eq!(number_of(&long), 21);
    // 23 anywhere before 24 anywhere, 24 before 25, 25 before 27.
    assert_eq!(number_of(&sheet::write(b"", &[2, 2, 5])), 23);
    assert_eq!(number_of(&sheet::write(b"\x01", &[4])), 23);
    assert_eq!(number_of(&sheet::write(b"", &[0, 0, 0, 2, 2, 2])), 24);
    assert_eq!(number_of(&sheet::write(b"", &[4, 0, 0])), 24);
    assert_eq!(number_of(&sheet::write(b"", &[0, 0])), 25);
}

#[test]
fn many_subtrees_waiting() {
    assert_eq!(number_of(&sheet::write(b"", &[0; 129])), 25);
    assert_eq!(number_of(&sheet::write(&[b'a'; 120], &[0; 255])), 25);
    // 128 at once is the most that 255 nodes can join again.
    let mut nodes = vec![1; 128];
    nodes.extend([2; 127]);
    assert_eq!(number_of(&sheet::write(b"", &nodes)), 1);
    let mut nodes = vec![1; 129];
    nodes.extend([2; 126]);
    assert_eq!(number_of(&sheet::write(b"", &nodes)), 25);
    let mut nodes = vec![0; 120];
    nodes.extend([3; 119]);
    assert_eq!(number_of(&sheet::write(&[b'a'; 120], &nodes)), 0);
}

// Names.

#[test]
fn name_length_on_both_sides() {
    let sheet = sheet_of(b"a*");
    let name = followed(b"", b'a', 255);
    assert_readings(b"a*", &name, &[&[1; 255]]);
    let long = followed(b"", b'a', 256);
    // 30 before 31 and 32.
    let refused = calls::first(&sheet, &long, &garbage(3), &garbage(3));
    assert_eq!((refused.number, refused.second), (30, 0));
    assert_eq!((refused.mapping, refused.work), (vec![0; 3], garbage(3)));
    assert_eq!(calls::accept(&sheet, &long, &[]).number, 30);
    let checked = calls::check(&sheet, &long, &garbage(256), &work_for(&long));
    assert_eq!(checked.number, 30);
    assert_eq!(
        (checked.mapping, checked.work),
        (garbage(256), work_for(&long))
    );
    // A refused sheet comes first.
    assert_eq!(calls::next(&[], &long, &[], &[]).number, 20);
}

#[test]
fn mapping_length_on_both_sides() {
    let sheet = sheet_of(b"a*");
    let exact = calls::first(&sheet, b"aa", &garbage(2), &garbage(192));
    assert_eq!((exact.number, exact.mapping), (0, vec![1, 1]));
    // 31 before 32.
    let first = calls::first(&sheet, b"aa", &[7], &[9]);
    assert_eq!(
        (first.number, first.mapping, first.work),
        (31, vec![0], vec![9])
    );
    let next = calls::next(&sheet, b"aa", &[1], &[9; 192]);
    assert_eq!(
        (next.number, next.mapping, next.work),
        (31, vec![0], vec![9; 192])
    );
    let check = calls::check(&sheet, b"aa", &[1], &[9; 192]);
    assert_eq!(
        (check.number, check.mapping, check.work),
        (31, vec![1], vec![9; 192])
    );
    assert_eq!(calls::accept(&sheet, b"aa", &[9; 192]).number, 0);
    assert_eq!(calls::first(&sheet, b"", &[], &[9; 64]).number, 0);
}

#[test]
fn work_length_on_both_sides() {
    let sheet = sheet_of(b"a*");
    let exact = calls::accept(&sheet, b"a", &[9; 128]);
    assert_eq!((exact.number, exact.work), (0, vec![0; 128]));
    let short = calls::accept(&sheet, b"a", &[9; 127]);
    assert_eq!((short.number, short.work), (32, vec![9; 127]));
    let first = calls::first(&sheet, b"a", &[7, 7], &[9; 127]);
    assert_eq!(
        (first.number, first.mapping, first.work),
        (32, vec![0, 0], vec![9; 127])
    );
    // 32 before 33.
    let next = calls::next(&sheet, b"a", &[7, 7], &[9; 127]);
    assert_eq!(
        (next.number, next.mapping, next.work),
        (32, vec![0, 0], vec![9; 127])
    );
    let check = calls::check(&sheet, b"a", &[1, 7], &[9; 127]);
    assert_eq!(
        (check.number, check.mapping, check.work),
        (32, vec![1, 7], vec![9; 127])
    );
    assert_eq!(calls::accept(&sheet, b"", &[9; 63]).number, 32);
}

#[test]
fn next_without_a_reading() {
    let none = calls::next(&sheet_of(b"b"), b"a", &[1, 7], &work_for(b"a"));
    assert_searched(&none, 33, b"a", 2);
    let empty = calls::next(&sheet_of(b"a"), b"", &[1, 7], &work_for(b""));
    assert_searched(&empty, 33, b"", 2);
    let sheet = sheet_of(b"(a|a)*");
    for entry in [0, 3, 121, 255] {
        let given = [1, entry, 7];
        let next = calls::next(&sheet, b"aa", &given, &work_for(b"aa"));
        assert_searched(&next, 33, b"aa", 3);
        let check = calls::check(&sheet, b"aa", &given, &work_for(b"aa"));
        assert_eq!((check.number, check.second), (1, 0));
        assert_eq!(
            (check.mapping, check.work),
            (given.to_vec(), work_searched(b"aa"))
        );
    }
}

#[test]
fn check_leaves_its_mapping() {
    let sheet = sheet_of(b"(a|a)*");
    let given = [2, 1, 7, 0, 9];
    let check = calls::check(&sheet, b"aa", &given, &work_for(b"aa"));
    assert_eq!(
        (check.number, check.mapping, check.work),
        (0, given.to_vec(), work_searched(b"aa"))
    );
    let empty = calls::check(&sheet, b"", &given, &work_for(b""));
    assert_eq!(
        (empty.number, empty.mapping, empty.work),
        (0, given.to_vec(), work_searched(b""))
    );
    let refused = calls::check(&sheet_of(b"a"), b"", &given, &work_for(b""));
    assert_eq!((refused.number, refused.mapping), (1, given.to_vec()));
}

#[test]
fn rows_zeroed_where_not_needed() {
    // Neither name needs a search to be refused.
    let sheet = sheet_of(b"a");
    for name in [&b"bbbb"[..], b""] {
        let accept = calls::accept(&sheet, name, &work_for(name));
        assert_eq!((accept.number, accept.work), (1, work_searched(name)));
        let first = calls::first(&sheet, name, &garbage(9), &work_for(name));
        assert_searched(&first, 1, name, 9);
    }
}

#[test]
fn names_of_any_byte() {
    assert_readings(b"a", b"\x00", &[]);
    assert_readings(b"a", b"\xFF", &[]);
    assert_readings(b"a*", b"a\x00a", &[]);
}

#[test]
fn traps() {
    // Paths through empty words do not repeat and do not run for ever.
    assert_readings(b"(()|a)*", b"aa", &[&[1, 1]]);
    assert_readings(b"(()|a)*", b"", &[&[]]);
    assert_readings(b"(()|()|a|())*", b"a", &[&[1]]);
    // The place that moves need not be the last one.
    assert_readings(b"ab|ab", b"ab", &[&[1, 2], &[3, 4]]);
    assert_readings(b"(a|b)*|(ab)b*", b"ab", &[&[1, 2], &[3, 4]]);
    let expected: [&[u8]; 3] = [&[1, 2, 2], &[1, 2, 5], &[3, 4, 5]];
    assert_readings(b"(ab*|ab)(b|())", b"abb", &expected);
}

#[test]
fn readings_past_counting() {
    let sheet = sheet_of(b"(a|a)*");
    let name = followed(b"", b'a', 255);
    let work = work_for(&name);
    let first = calls::first(&sheet, &name, &garbage(255), &work);
    assert_eq!((first.number, &first.mapping), (0, &vec![1; 255]));
    let mut given = vec![1; 255];
    given[100..].fill(2);
    let next = calls::next(&sheet, &name, &given, &work);
    let mut expected = vec![1; 255];
    expected[99] = 2;
    assert_eq!((next.number, next.mapping), (0, expected));
    let last = calls::next(&sheet, &name, &[2; 255], &work);
    assert_searched(&last, 1, &name, 255);
}

// Listing program.

#[test]
fn listing_counts() {
    assert_eq!(listing(b"a\nb\n"), "leaves 1 nodes 1\nend 0\n");
    let thousand = listing(b"(a|a|a|a|a|a|a|a|a|a)*\naaa\n");
    assert_eq!(thousand.lines().count(), 1002);
    assert!(thousand.starts_with("leaves 10 nodes 20\n1,1,1\n1,1,2\n"));
    assert!(thousand.ends_with("\n10,10,9\n10,10,10\nend 1000\n"));
    // 1024 readings: the thousandth is 1111100111 in binary, counted from 0.
    let more = listing(b"(a|a)*\naaaaaaaaaa\n");
    assert_eq!(more.lines().count(), 1002);
    assert!(more.ends_with("\n2,2,2,2,2,1,1,2,2,2\nmore\n"));
}

#[test]
fn listing_long_lines() {
    let text = followed(b"", b'a', 5000);
    assert_eq!(listing(&text), "refused 10 at 512\n");
    let name = followed(b"a\n", b'a', 5000);
    assert_eq!(listing(&name), "leaves 1 nodes 1\nrefused 30\n");
    let both = followed(b"a*\n", b'a', 255);
    assert!(listing(&both).ends_with(",1,1\nend 1\n"));
}

#[test]
fn listing_carriage_return() {
    assert_eq!(listing(b"a\r\na\n"), "refused 11 at 1\n");
    assert_eq!(listing(b"a\na\r\n"), "leaves 1 nodes 1\nend 0\n");
}
