//! The sample of document 01 and a few worked rule sets, in bytes and words written out by hand.

mod common;

use common::{expect_check, expect_compile, SAMPLE_IMAGE};

const SAMPLE_TABLE: [u16; 32] = [
    6, 4, // six states, four symbols
    0, 0, 1, 0, 2, 3, // match words
    1, 5, 0, 3, // 0: empty
    1, 2, 0, 3, // 1: lock
    1, 5, 0, 3, // 2: lock take
    1, 5, 4, 3, // 3: held
    1, 5, 0, 3, // 4: held free
    1, 5, 0, 3, // 5: take
];

#[test]
fn sample_image() {
    let set = reference::random::sample();
    assert_eq!(reference::encode(&set), SAMPLE_IMAGE);
    assert_eq!(reference::table(&set), SAMPLE_TABLE);
}

#[test]
fn sample_table() {
    expect_compile(&SAMPLE_IMAGE, 32, Ok(&SAMPLE_TABLE));
    expect_compile(&SAMPLE_IMAGE, 100, Ok(&SAMPLE_TABLE));
    expect_compile(&SAMPLE_IMAGE, 31, Err(8));
    expect_compile(&SAMPLE_IMAGE[..21], 32, Err(7));
    expect_check(&SAMPLE_IMAGE, &SAMPLE_TABLE, Ok(()));
    expect_check(&SAMPLE_IMAGE, &SAMPLE_TABLE[..31], Err(9));
    expect_check(&SAMPLE_IMAGE[..21], &SAMPLE_TABLE, Err(7));
}

#[test]
fn sample_table_with_one_word_changed() {
    for place in 0..32 {
        for change in 1..=u16::MAX {
            let mut table = SAMPLE_TABLE;
            table[place] ^= change;
            expect_check(&SAMPLE_IMAGE, &table, Err(9));
        }
    }
}

/// b a a c → fail; a a → empty: the state `b a a` matches the second rule (C5).
#[test]
fn a_match_inside_a_longer_left_side() {
    let image = [
        3, 2, 2, 3, //
        4, 1, 0, 0, //
        2, 0, 0, 0, //
        1, 0, 0, 2, // b a a c
        0, 0, // a a
    ];
    let table = [
        7, 3, //
        0, 0, 0, 2, 1, 0, 2, //
        5, 1, 0, // 0: empty
        2, 1, 0, // 1: b
        3, 1, 0, // 2: b a
        6, 1, 4, // 3: b a a
        5, 1, 0, // 4: b a a c
        6, 1, 0, // 5: a
        6, 1, 0, // 6: a a
    ];
    expect_compile(&image, table.len(), Ok(&table));
    expect_check(&image, &table, Ok(()));
    // Matching only a state's own left side.
    let mut own = table;
    own[2 + 3] = 0;
    expect_check(&image, &own, Err(9));
}

/// a → fail; a → succeed: the lowest of equal rules (C8).
#[test]
fn equal_left_sides() {
    let image = [
        1, 2, 2, 1, //
        1, 1, 0, 0, //
        1, 1, 1, 0, //
        0, // a
        0, // a
    ];
    let table = [2, 1, 0, 1, 1, 1];
    expect_compile(&image, table.len(), Ok(&table));
    expect_check(&image, &table, Ok(()));
    expect_check(&image, &[2, 1, 0, 2, 1, 1], Err(9));
}

/// c; b c; a b c: the longest left side matches, whatever its rule's number.
#[test]
fn nested_left_sides() {
    let image = [
        3, 3, 16, 1, //
        1, 1, 15, 0, //
        2, 1, 14, 0, //
        3, 0, 3, 0, //
        2, // c
        1, 2, // b c
        0, 1, 2, // a b c
        0, 1, 2,
    ];
    let table = [
        7, 3, //
        0, 1, 0, 2, 0, 0, 3, //
        4, 2, 1, // 0: empty
        4, 2, 1, // 1: c
        4, 2, 3, // 2: b
        4, 2, 1, // 3: b c
        4, 5, 1, // 4: a
        4, 2, 6, // 5: a b
        4, 2, 1, // 6: a b c
    ];
    expect_compile(&image, table.len(), Ok(&table));
    expect_check(&image, &table, Ok(()));
}

/// No rules: one state, which nothing leaves.
#[test]
fn no_rules() {
    expect_compile(&[3, 0, 2, 1], 6, Ok(&[1, 3, 0, 0, 0, 0]));
    expect_compile(&[3, 0, 2, 1], 5, Err(8));
    expect_check(&[3, 0, 2, 1], &[1, 3, 0, 0, 0, 0], Ok(()));
    expect_check(&[3, 0, 2, 1], &[1, 3, 0, 0, 0], Err(9));
}
