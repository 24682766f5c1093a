//! The cases that the paper itself lists: P1 to P12, then those marked "run only".

mod common;

use common::*;

#[test]
fn the_sheet_of_105_bytes() {
    assert_eq!(blanchet().len(), 105);
    assert_eq!(second::sheet(&blanchet()), good(9, 2));
}

#[test]
fn p1_the_initiators_view_is_open() {
    assert_eq!(second::realized(&blanchet(), 0), open_at(0, 1));
}

#[test]
fn p2_reach_before_the_open_reception() {
    assert_eq!(second::reach(&blanchet(), 0, 0, 1), reach(4));
}

#[test]
fn p3_the_shape_is_realized() {
    assert_eq!(second::realized(&blanchet(), 1), YES);
    assert_eq!(second::reach(&blanchet(), 1, 0, 1), reach(5));
}

#[test]
fn p4_the_view_maps_to_its_shape_in_one_way() {
    assert_eq!(listed::<1>(&blanchet(), 0, 1), [[0]]);
}

/// 000, section 5.1, the responder's shape. 0 s, 1 d, 2 a, 3 b, 4 b', 5 inverse of a,
/// 6 inverse of b, 7 inverse of b', 8 s under 5, 9 that under b, 10 that under b', 11 d under s.
const RESPONDER: &str = "BS 1 TM 5 0 0 TM 3 0 0 TM 6 0 0 TM 6 1 0 TM 6 2 0
    TM 8 2 0 TM 8 3 0 TM 8 4 0 TM 11 0 5 TM 11 8 3 TM 11 8 4 TM 11 1 0 SK ST 2 1 9 0 11";

#[test]
fn p5_the_responders_shape_is_realized() {
    let sheet = bytes(&format!(
        "{RESPONDER} ST 1 0 10 OR 1 0 0 0 NO 5 NO 6 UO 0 EN"
    ));
    assert_eq!(second::realized(&sheet, 0), YES);
}

#[test]
fn p6_the_leak_is_realized() {
    let sheet = bytes(&format!(
        "{RESPONDER} ST 1 0 10 ST 1 1 1 OR 1 0 0 0 OR 0 1 2 0 NO 5 NO 6 UO 0 UO 1 EN"
    ));
    assert_eq!(second::realized(&sheet, 0), YES);
}

#[test]
fn p7_without_the_other_key_there_is_no_leak() {
    let sheet = bytes(&format!(
        "{RESPONDER} ST 1 0 9 ST 1 1 1 OR 1 0 0 0 OR 0 1 2 0 NO 5 NO 6 UO 0 UO 1 EN"
    ));
    assert_eq!(second::realized(&sheet, 0), open_at(2, 0));
}

#[test]
fn p8_a_lone_tag_received_is_realized() {
    let sheet = bytes("BS 1 TM 0 0 0 SK ST 1 1 0 EN");
    assert_eq!(second::realized(&sheet, 0), YES);
}

#[test]
fn p9_the_hash_of_a_non_originating_atom_is_open() {
    let sheet = bytes("BS 1 TM 2 0 0 TM 12 0 0 SK ST 1 1 1 NO 0 EN");
    assert_eq!(second::realized(&sheet, 0), open_at(0, 0));
}

/// Four texts: 0 x, 1 x2, 2 y, 3 z.
const TEXTS: &str = "BS 1 TM 2 0 0 TM 2 1 0 TM 2 2 0 TM 2 3 0";

#[test]
fn p10_two_sends_into_two_sends() {
    let sheet = bytes(&format!(
        "{TEXTS} SK ST 1 0 0 ST 1 0 1 SK ST 1 0 2 ST 1 0 3 EN"
    ));
    assert_eq!(listed::<2>(&sheet, 0, 1), [[0, 0], [0, 1], [1, 0], [1, 1]]);
}

#[test]
fn p11_one_text_on_both_strands() {
    let sheet = bytes(&format!(
        "{TEXTS} SK ST 1 0 0 ST 1 0 0 SK ST 1 0 2 ST 1 0 3 EN"
    ));
    assert_eq!(listed::<2>(&sheet, 0, 1), [[0, 0], [1, 1]]);
}

#[test]
fn p12_a_unique_text_goes_to_the_unique_one() {
    let sheet = bytes(&format!(
        "{TEXTS} SK ST 1 0 0 UO 0 SK ST 1 0 2 ST 1 0 3 UO 2 EN"
    ));
    assert_eq!(listed::<1>(&sheet, 0, 1), [[0]]);
}

#[test]
fn run_only_empty_input() {
    assert_eq!(second::sheet(&[]), refused(1, 0, 0));
}

#[test]
fn run_only_200_terms_are_good_and_a_201st_is_not() {
    let sheet = |count| bytes(&format!("BS 1 {} SK ST 1 1 0 EN", tags(count)));
    assert_eq!(second::sheet(&sheet(200)), good(200, 1));
    // BS has 3 bytes and 200 TM records 1,000.
    assert_eq!(second::sheet(&sheet(201)), refused(4, 1003, 0));
}

#[test]
fn run_only_heights() {
    let sheet = |height: usize| {
        let events = times(height, "1 0");
        bytes(&format!("BS 1 TM 0 0 0 SK ST {height} {events} EN"))
    };
    assert_eq!(second::sheet(&sheet(1)), good(1, 1));
    assert_eq!(second::sheet(&sheet(16)), good(1, 1));
    // ST stands behind BS, one TM and SK: 3 + 5 + 2.
    assert_eq!(second::sheet(&sheet(17)), refused(4, 10, 0));
    assert_eq!(second::sheet(&sheet(0)), refused(4, 10, 0));
}

#[test]
fn run_only_list_space_one_byte_short() {
    let sheet = bytes(&format!(
        "{TEXTS} SK ST 1 0 0 ST 1 0 1 SK ST 1 0 2 ST 1 0 3 EN"
    ));
    let mut space = [CANARY; 8];
    assert_eq!(second::list(&sheet, 0, 1, &mut space), maps(4));
    let mut space = [CANARY; 7];
    assert_eq!(second::list(&sheet, 0, 1, &mut space), refused(16, 0, 0));
    assert_eq!(space, [CANARY; 7]);
}

/// "The longest good sheet has 2,581 bytes": 200 terms and, twice, 6 strands of height 16,
/// 64 OR, 32 NO and 32 UO.
#[test]
fn the_longest_good_sheet() {
    // Term 0 is a text that stands only in its hash, term 2; term 1 is sent once in the clear.
    let strand = format!("ST 16 0 2 {} 1 3", times(14, "0 2"));
    let sender = format!("ST 16 0 1 {} 1 3", times(14, "0 2"));
    let skeleton = format!(
        "SK {sender} {} {} {} {}",
        times(5, &strand),
        times(64, "OR 0 0 1 15"),
        times(32, "NO 0"),
        times(32, "UO 1"),
    );
    let sheet = bytes(&format!(
        "BS 1 TM 2 0 0 TM 2 1 0 TM 12 0 0 {} {skeleton} {skeleton} EN",
        tags(197)
    ));
    assert_eq!(sheet.len(), 2581);
    assert_eq!(second::sheet(&sheet), good(200, 2));
    // Term 3, the first tag, is all that is received.
    assert_eq!(second::realized(&sheet, 1), YES);
}
