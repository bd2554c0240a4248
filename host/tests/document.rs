//! Every case of document 01's section "Both sides of the line", typed from it.

mod common;

use common::*;
use satchelram_host::matcher::listing::listing;

#[test]
fn p1_sheet() {
    let expected = [1, 3, 0x61, 0x62, 0x61, 6, 0, 0, 0, 2, 3, 4];
    assert_eq!(sheet_of(b"(a|(ba))*"), expected);
}

#[test]
fn p2_one_reading() {
    assert_readings(b"(a|(ba))*", b"aaba", &[&[1, 1, 2, 3]]);
}

#[test]
fn p3_four_readings() {
    let expected: [&[u8]; 4] = [&[1, 1], &[1, 2], &[2, 1], &[2, 2]];
    assert_readings(b"(a|a)*", b"aa", &expected);
}

#[test]
fn p4_empty_reading() {
    assert_readings(b"(a|a)*", b"", &[&[]]);
}

#[test]
fn p5_two_stars() {
    let expected: [&[u8]; 3] = [&[1, 1], &[1, 2], &[2, 2]];
    assert_readings(b"a*a*", b"aa", &expected);
}

#[test]
fn p6_star_of_star() {
    assert_readings(b"(a*)*", b"aaa", &[&[1, 1, 1]]);
}

#[test]
fn p7_long_and_short() {
    let expected: [&[u8]; 2] = [&[1, 5, 6, 7], &[2, 3, 4, 8]];
    assert_readings(b"(a|ab)(c|bcd)d*", b"abcd", &expected);
}

#[test]
fn p8_not_the_smallest_so_far() {
    assert_readings(b"a*ab", b"ab", &[&[2, 3]]);
}

#[test]
fn p9_the_way_back() {
    assert_readings(b"(a*b*)*", b"ba", &[&[2, 1]]);
}

#[test]
fn p10_empty_word() {
    assert_eq!(sheet_of(b"()"), [1, 0, 1, 1]);
    assert_readings(b"()", b"", &[&[]]);
}

#[test]
fn p11_empty_word_only() {
    assert_readings(b"()", b"a", &[]);
}

#[test]
fn p12_grouped_from_the_left() {
    assert_eq!(nodes_of(b"abc"), [0, 0, 2, 0, 2]);
}

#[test]
fn p13_grouped_by_parentheses() {
    assert_eq!(nodes_of(b"a(bc)"), [0, 0, 0, 2, 2]);
}

#[test]
fn p14_optional_copies() {
    assert_readings(b"a{0,2}", b"a", &[&[1], &[2]]);
}

#[test]
fn refused_texts() {
    assert_refused(b"", 12, 0);
    assert_refused(b")", 13, 0);
    assert_refused(b"(a|", 14, 3);
    assert_refused(b"a|*", 12, 2);
    assert_refused(b"a*{1,2}", 19, 2);
}

#[test]
fn leaves_on_both_sides() {
    let sheet = sheet_of(b"a{99,99}b{21,21}");
    assert_eq!(sheet[..3], [1, 120, b'a']);
    assert_eq!(sheet[100..103], [b'a', b'b', b'b']);
    // 120 leaves and 119 concatenations.
    assert_eq!(sheet[122], 239);
    assert_refused(b"a{99,99}b{22,22}", 16, 8);
}

#[test]
fn nodes_on_both_sides() {
    let sheet = sheet_of(b"a{0,64}");
    assert_eq!((sheet[1], sheet[2 + 64]), (64, 255));
    assert_refused(b"a{0,65}", 17, 7);
}

#[test]
fn stars_on_both_sides() {
    let sheet = sheet_of(&followed(b"a", b'*', 254));
    assert_eq!(sheet[..5], [1, 1, b'a', 255, 0]);
    assert_eq!(sheet[5..], [4; 254]);
    // 17 stands at the text length: the letter and 255 stars.
    assert_refused(&followed(b"a", b'*', 255), 17, 256);
    assert_refused(&followed(b"a", b'*', 512), 10, 512);
}

#[test]
fn next_again_after_no_more() {
    let sheet = sheet_of(b"a");
    let mapping = [1, GARBAGE, GARBAGE];
    let no_more = calls::next(&sheet, b"a", &mapping, &work_for(b"a"));
    assert_searched(&no_more, 1, b"a", 3);
    let again = calls::next(&sheet, b"a", &no_more.mapping, &work_for(b"a"));
    assert_searched(&again, 33, b"a", 3);
}

#[test]
fn next_again_on_the_empty_name() {
    let sheet = sheet_of(b"a*");
    let mut mapping = garbage(2);
    for _ in 0..3 {
        let no_more = calls::next(&sheet, b"", &mapping, &work_for(b""));
        assert_searched(&no_more, 1, b"", 2);
        mapping = no_more.mapping;
    }
}

#[test]
fn listing_whole() {
    let expected = "leaves 2 nodes 5\n1,1\n1,2\n2,2\nend 3\n";
    assert_eq!(listing(b"a*a*\naa\n"), expected);
}

#[test]
fn listing_lines() {
    // No last line feed, and later lines that are ignored.
    assert_eq!(listing(b"a\na"), "leaves 1 nodes 1\n1\nend 1\n");
    assert_eq!(listing(b"a\na\nb\n"), "leaves 1 nodes 1\n1\nend 1\n");
    // Absent lines are empty.
    assert_eq!(listing(b"a*"), "leaves 1 nodes 2\n-\nend 1\n");
    assert_eq!(listing(b"a*\n"), "leaves 1 nodes 2\n-\nend 1\n");
    assert_eq!(listing(b""), "refused 12 at 0\n");
}

#[test]
fn listing_refusals() {
    assert_eq!(listing(b"\na\n"), "refused 12 at 0\n");
    assert_eq!(listing(b"(a|\na\n"), "refused 14 at 3\n");
    let long = followed(b"a\n", b'a', 256);
    assert_eq!(listing(&long), "leaves 1 nodes 1\nrefused 30\n");
}
