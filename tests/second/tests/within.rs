//! Carried only within, worked out from its definition: "each carrying path from t' down to t
//! passes a member of S strictly above its last place".

mod common;

use common::*;

/// 0 x, 1 y, 2 k, 3 x under k, 4 pair of 3 and y, 5 pair of 3 and x, 6 pair of x and x,
/// 7 hash of x, 8 k under x, 9 pair 4 under k, 10 x under x.
fn sheet() -> Vec<u8> {
    bytes(
        "BS 1 TM 2 0 0 TM 2 1 0 TM 5 0 0 TM 11 0 2 TM 10 3 1 TM 10 3 0 TM 10 0 0 TM 12 0 0
         TM 11 2 0 TM 11 4 2 TM 11 0 0 SK ST 1 1 1 EN",
    )
}

fn only_within(t: u8, inside: u8, set: &[u8]) -> u64 {
    second::within(&sheet(), t, inside, set)
}

#[test]
fn a_path_is_protected_by_what_it_passes() {
    assert_eq!(only_within(0, 3, &[3]), YES);
    assert_eq!(only_within(0, 4, &[3]), YES);
    assert_eq!(only_within(0, 4, &[4]), YES);
    assert_eq!(only_within(0, 9, &[4]), YES);
    assert_eq!(only_within(0, 9, &[9]), YES);
    assert_eq!(only_within(0, 3, &[]), NO);
    assert_eq!(only_within(0, 4, &[1, 2, 7]), NO);
}

#[test]
fn every_path_has_to_be_protected() {
    assert_eq!(only_within(0, 5, &[3]), NO);
    assert_eq!(only_within(0, 5, &[5]), YES);
    assert_eq!(only_within(0, 6, &[]), NO);
    assert_eq!(only_within(0, 6, &[6]), YES);
}

/// "Membership of t itself in S protects nothing."
#[test]
fn its_own_membership_protects_nothing() {
    assert_eq!(only_within(0, 0, &[0]), NO);
    assert_eq!(only_within(0, 3, &[0]), NO);
    assert_eq!(only_within(3, 4, &[3]), NO);
    assert_eq!(only_within(3, 4, &[4]), YES);
    assert_eq!(only_within(3, 3, &[3, 0]), NO);
}

/// "If t' doesn't carry t, the answer is yes": keys and what is hashed are not carried.
#[test]
fn what_is_not_carried_is_within_anything() {
    assert_eq!(only_within(2, 3, &[]), YES);
    assert_eq!(only_within(0, 7, &[]), YES);
    assert_eq!(only_within(0, 8, &[]), YES);
    assert_eq!(only_within(2, 8, &[]), NO);
    assert_eq!(only_within(1, 0, &[]), YES);
    assert_eq!(only_within(4, 3, &[]), YES);
    // The key only if the body carries it.
    assert_eq!(only_within(0, 10, &[]), NO);
}

/// "lent term numbers for S (repeats harmless)"; S may be of any length.
#[test]
fn repeats_are_harmless() {
    assert_eq!(only_within(0, 4, &[3, 3, 3]), YES);
    assert_eq!(only_within(0, 4, &[1; 1000]), NO);
    let mut long = vec![1; 1000];
    long.push(3);
    assert_eq!(only_within(0, 4, &long), YES);
}

/// "15 if any of them all is no term".
#[test]
fn refusal_15() {
    let none = refused(15, 0, 0);
    assert_eq!(only_within(11, 0, &[]), none);
    assert_eq!(only_within(0, 11, &[]), none);
    assert_eq!(only_within(0, 0, &[11]), none);
    assert_eq!(only_within(0, 0, &[0, 1, 255]), none);
    assert_eq!(only_within(255, 255, &[255]), none);
}

#[test]
fn the_sheets_refusal_comes_first() {
    assert_eq!(second::within(&[], 0, 0, &[]), refused(1, 0, 0));
}

/// Term 190 is a pair of 189 twice and so on; only one of the two ways is ever protected.
#[test]
fn parts_in_many_places_are_walked_once() {
    let levels: String = (0..190).map(|t| format!(" TM 10 {t} {t} ")).collect();
    let sheet = bytes(&format!("BS 1 TM 2 0 0 {levels} SK ST 1 1 0 EN"));
    assert_eq!(second::within(&sheet, 0, 190, &[]), NO);
    assert_eq!(second::within(&sheet, 0, 190, &[95]), YES);
}
