//! Every refusal of a sheet at a place worked out from the paper's table, and their order.

mod common;

use common::*;

/// Each sheet with the number, place and skeleton of its refusal.
fn all_refused(cases: &[(&str, u64, u64, u64)]) {
    for &(text, number, place, skeleton) in cases {
        let answer = second::sheet(&bytes(text));
        assert_eq!(answer, refused(number, place, skeleton), "{text}");
    }
}

fn all_good(cases: &[(&str, u64, u64)]) {
    for &(text, terms, skeletons) in cases {
        let answer = second::sheet(&bytes(text));
        assert_eq!(answer, good(terms, skeletons), "{text}");
    }
}

/// "bytes end inside a record or before EN: offset where that record, or the missing next one,
/// begins"; "fewer than two bytes, 1".
#[test]
fn refusal_1_bytes_end() {
    all_refused(&[
        ("", 1, 0, 0),
        ("B", 1, 0, 0),
        ("X", 1, 0, 0),
        ("BS", 1, 0, 0),
        ("BS 1", 1, 3, 0),
        ("BS 1 T", 1, 3, 0),
        ("BS 1 TM", 1, 3, 0),
        ("BS 1 TM 0", 1, 3, 0),
        ("BS 1 TM 0 0", 1, 3, 0),
        ("BS 1 TM 0 0 0", 1, 8, 0),
        ("BS 1 TM 0 0 0 SK", 1, 10, 0),
        ("BS 1 TM 0 0 0 SK ST", 1, 10, 0),
        ("BS 1 TM 0 0 0 SK ST 1", 1, 10, 0),
        ("BS 1 TM 0 0 0 SK ST 1 1", 1, 10, 0),
        ("BS 1 TM 0 0 0 SK ST 2 0 0 1", 1, 10, 0),
        ("BS 1 TM 0 0 0 SK ST 1 1 0", 1, 15, 0),
        ("BS 1 TM 0 0 0 SK ST 2 0 0 1 0 OR 0 0 0", 1, 17, 0),
        ("BS 1 TM 0 0 0 SK ST 2 0 0 1 0 OR 0 0 0 1", 1, 23, 0),
        ("BS 1 TM 2 0 0 SK ST 1 1 0 NO", 1, 15, 0),
        ("BS 1 TM 2 0 0 SK ST 1 1 0 NO 0 UO", 1, 18, 0),
        ("BS 1 TM 0 0 0 SK ST 1 1 0 E", 1, 15, 0),
        ("BS 1 TM 0 0 0 SK ST 1 1 0 SK", 1, 17, 0),
        ("BS 1 TM 0 0 0 SK ST 1 1 0 SK ST 1 1 0", 1, 22, 0),
    ]);
}

/// The 105-byte sheet cut short anywhere ends inside a record or before EN; the record begins
/// at the greatest of these offsets that is not beyond the cut.
#[test]
fn refusal_1_at_every_cut_of_the_sheet_of_105_bytes() {
    let starts = [
        0, 3, 8, 13, 18, 23, 28, 33, 38, 43, 48, 50, 57, 60, 63, 66, 68, 75, 82, 88, 94, 97, 100,
        103,
    ];
    let sheet = blanchet();
    for cut in 0..sheet.len() {
        let record = *starts.iter().rfind(|&&start| start <= cut).unwrap();
        assert_eq!(second::sheet(&sheet[..cut]), refused(1, record as u64, 0));
    }
}

/// "mark unknown or not allowed next"; "a mark out of order is 2".
#[test]
fn refusal_2_marks() {
    all_refused(&[
        ("XX", 2, 0, 0),
        ("bs 1", 2, 0, 0),
        ("TM 0 0 0", 2, 0, 0),
        ("EN", 2, 0, 0),
        ("BS 1 BS 1", 2, 3, 0),
        ("BS 1 XX", 2, 3, 0),
        ("BS 1 EN", 2, 3, 0),
        ("BS 1 ST 1 1 0", 2, 3, 0),
        ("BS 1 TM 0 0 0 OR 0 0 0 0", 2, 8, 0),
        ("BS 1 TM 2 0 0 NO 0", 2, 8, 0),
        ("BS 1 TM 2 0 0 UO 0", 2, 8, 0),
        ("BS 1 SK EN", 2, 5, 0),
        ("BS 1 SK SK", 2, 5, 0),
        ("BS 1 SK TM 0 0 0", 2, 5, 0),
        ("BS 1 TM 2 0 0 SK OR 0 0 0 0", 2, 10, 0),
        ("BS 1 TM 2 0 0 SK NO 0", 2, 10, 0),
        ("BS 1 TM 2 0 0 SK UO 0", 2, 10, 0),
        ("BS 1 TM 2 0 0 SK ST 1 1 0 TM 2 1 0", 2, 15, 0),
        ("BS 1 TM 2 0 0 SK ST 1 1 0 BS 1", 2, 15, 0),
        ("BS 1 TM 2 0 0 SK ST 1 1 0 EX", 2, 15, 0),
    ]);
}

/// "then OR, NO and UO records in that order". Up to OR the sheet has 17 bytes, then OR 6 more.
#[test]
fn refusal_2_order_within_a_skeleton() {
    let strand = "BS 1 TM 2 0 0 SK ST 2 0 0 1 0";
    let pair = "OR 0 0 0 1";
    let out_of_order = [
        (format!("{strand} {pair} ST 1 1 0"), 23),
        (format!("{strand} NO 0 ST 1 1 0"), 20),
        (format!("{strand} NO 0 {pair}"), 20),
        (format!("{strand} UO 0 ST 1 1 0"), 20),
        (format!("{strand} UO 0 {pair}"), 20),
        (format!("{strand} UO 0 NO 0"), 20),
        (format!("{strand} {pair} UO 0 NO 0"), 26),
        (format!("{strand} {pair} {pair} NO 0 UO 0 UO 0 {pair}"), 38),
    ];
    for (text, place) in &out_of_order {
        all_refused(&[(text, 2, *place, 0)]);
    }
}

/// "edition not 1", whatever follows.
#[test]
fn refusal_3_edition() {
    all_refused(&[
        ("BS 0", 3, 0, 0),
        ("BS 2", 3, 0, 0),
        ("BS 255 XX", 3, 0, 0),
        ("BS 49 TM 0 0 0 SK ST 1 1 0 EN", 3, 0, 0),
    ]);
}

/// "one record too many, or height outside 1 to 16"; the count is judged before completeness.
#[test]
fn refusal_4_too_many() {
    let tags = tags(200);
    let strands = format!("BS 1 TM 0 0 0 SK {}", times(6, "ST 1 1 0"));
    let pairs = format!("BS 1 TM 2 0 0 SK ST 2 0 0 1 0 {}", times(64, "OR 0 0 0 1"));
    let nons = format!("BS 1 TM 2 0 0 SK ST 1 1 0 {}", times(32, "NO 0"));
    let uniques = format!("BS 1 TM 2 0 0 SK ST 1 1 0 {}", times(32, "UO 0"));
    let cases = [
        (format!("BS 1 {tags} TM 1 0 0"), 1003),
        (format!("BS 1 {tags} TM 99 99 99"), 1003),
        (format!("BS 1 {tags} TM"), 1003),
        (format!("{strands} ST 1 1 0"), 40),
        (format!("{strands} ST 0"), 40),
        (format!("{strands} ST"), 40),
        (format!("{pairs} OR 0 0 0 1"), 401),
        (format!("{pairs} OR"), 401),
        (format!("{nons} NO 0"), 111),
        (format!("{nons} NO"), 111),
        (format!("{uniques} UO 0"), 111),
        (format!("{uniques} UO"), 111),
    ];
    for (text, place) in &cases {
        all_refused(&[(text, 4, *place, 0)]);
    }
}

/// "mark (2), count (4)": what is not allowed next is 2 also when it would be one too many.
#[test]
fn refusal_2_before_4() {
    let tags = tags(200);
    let nons = times(32, "NO 0");
    let strands = times(6, "ST 1 1 0");
    let cases = [
        (format!("BS 1 {tags} SK ST 1 1 0 TM 1 0 0"), 1010),
        (
            format!("BS 1 TM 2 0 0 SK ST 1 1 0 {nons} UO 0 NO 0"),
            15 + 96 + 3,
        ),
        (
            format!("BS 1 TM 2 0 0 SK {strands} NO 0 ST 1 1 0"),
            10 + 30 + 3,
        ),
    ];
    for (text, place) in &cases {
        all_refused(&[(text, 2, *place, 0)]);
    }
}

/// "for ST height byte 1, its range 4, events 1".
#[test]
fn refusal_4_height() {
    all_refused(&[
        ("BS 1 TM 0 0 0 SK ST 0", 4, 10, 0),
        ("BS 1 TM 0 0 0 SK ST 17", 4, 10, 0),
        ("BS 1 TM 0 0 0 SK ST 255 1 0", 4, 10, 0),
        ("BS 1 TM 0 0 0 SK ST 16 9 9", 1, 10, 0),
        ("BS 1 TM 0 0 0 SK ST 1 1 0 ST 0 1 0", 4, 15, 0),
    ]);
}

/// "A third SK where a new skeleton could begin [...] is 4"; straight after SK it is 2.
#[test]
fn refusal_4_third_skeleton() {
    all_refused(&[
        ("BS 1 TM 0 0 0 SK ST 1 1 0 SK ST 1 1 0 SK", 4, 22, 0),
        (
            "BS 1 TM 2 0 0 SK ST 1 1 0 SK ST 1 0 0 UO 0 SK ST 1 1 0",
            4,
            25,
            0,
        ),
        ("BS 1 TM 0 0 0 SK ST 1 1 0 SK SK", 2, 17, 0),
    ]);
}

/// "Limits count records, repeats included": 64 equal OR, 32 equal NO and UO are still good.
#[test]
fn the_last_of_each_is_taken() {
    let pairs = times(64, "OR 0 0 0 1");
    let uniques = times(32, "UO 0");
    let nons = times(32, "NO 1");
    let strands = times(5, "ST 1 1 2");
    let text = format!(
        "BS 1 TM 2 0 0 TM 2 1 0 TM 12 1 0 SK ST 2 0 0 1 2 {strands} {pairs} {nons} {uniques} EN"
    );
    all_good(&[(&text, 3, 1)]);
}

/// "term kind, argument or unused byte wrong", term by term of the list of kinds.
#[test]
fn refusal_5_terms() {
    all_refused(&[
        ("BS 1 TM 13 0 0", 5, 3, 0),
        ("BS 1 TM 255 0 0", 5, 3, 0),
        ("BS 1 TM 0 0 1", 5, 3, 0),
        ("BS 1 TM 1 0 1", 5, 3, 0),
        ("BS 1 TM 6 0 255", 5, 3, 0),
        // A public key is that of a name.
        ("BS 1 TM 7 0 0", 5, 3, 0),
        ("BS 1 TM 2 0 0 TM 7 0 0", 5, 8, 0),
        ("BS 1 TM 4 0 0 TM 7 0 1", 5, 8, 0),
        ("BS 1 TM 4 0 0 TM 7 1 0", 5, 8, 0),
        // An inverse is that of kind 6 or 7.
        ("BS 1 TM 5 0 0 TM 8 0 0", 5, 8, 0),
        ("BS 1 TM 6 0 0 TM 8 0 0 TM 8 1 0", 5, 13, 0),
        ("BS 1 TM 6 0 0 TM 8 0 1", 5, 8, 0),
        ("BS 1 TM 6 0 0 TM 8 1 0", 5, 8, 0),
        // A long-term key is that of two names.
        ("BS 1 TM 4 0 0 TM 9 0 1", 5, 8, 0),
        ("BS 1 TM 4 0 0 TM 2 0 0 TM 9 0 1", 5, 13, 0),
        ("BS 1 TM 4 0 0 TM 2 0 0 TM 9 1 0", 5, 13, 0),
    ]);
}

/// "Arguments are earlier terms. A key isn't a message variable."
#[test]
fn refusal_5_arguments() {
    all_refused(&[
        ("BS 1 TM 10 0 0", 5, 3, 0),
        ("BS 1 TM 2 0 0 TM 10 0 1", 5, 8, 0),
        ("BS 1 TM 2 0 0 TM 10 1 0", 5, 8, 0),
        ("BS 1 TM 2 0 0 TM 11 0 1", 5, 8, 0),
        ("BS 1 TM 2 0 0 TM 11 255 0", 5, 8, 0),
        ("BS 1 TM 2 0 0 TM 1 0 0 TM 11 0 1", 5, 13, 0),
        ("BS 1 TM 1 0 0 TM 11 0 0", 5, 8, 0),
        ("BS 1 TM 2 0 0 TM 12 1 0", 5, 8, 0),
        ("BS 1 TM 2 0 0 TM 12 0 1", 5, 8, 0),
    ]);
}

/// Whatever is not named a fault is taken: `a` of kinds 0 to 6 is just a number; a key may be a
/// tag, a pair or a hash; a long-term key may be of one name twice; a message variable may be a
/// body or half of a pair.
#[test]
fn terms_of_every_kind_are_taken() {
    all_good(&[
        (
            "BS 1 TM 0 255 0 TM 1 255 0 TM 2 255 0 TM 3 255 0 TM 4 255 0 TM 5 255 0 TM 6 255 0
             TM 7 4 0 TM 8 6 0 TM 8 7 0 TM 9 4 4 TM 10 1 1 TM 11 1 0 TM 12 1 0
             TM 11 1 11 TM 11 1 13 TM 11 1 12 SK ST 1 1 0 EN",
            17,
            1,
        ),
        // The same numbers in other kinds are other terms.
        (
            "BS 1 TM 0 0 0 TM 1 0 0 TM 2 0 0 TM 3 0 0 SK ST 1 1 0 EN",
            4,
            1,
        ),
        (
            "BS 1 TM 2 0 0 TM 2 1 0 TM 10 0 1 TM 10 1 0 SK ST 1 1 0 EN",
            4,
            1,
        ),
    ]);
}

#[test]
fn refusal_6_term_already_there() {
    all_refused(&[
        ("BS 1 TM 2 0 0 TM 2 0 0", 6, 8, 0),
        ("BS 1 TM 2 0 0 TM 2 1 0 TM 2 0 0", 6, 13, 0),
        ("BS 1 TM 2 0 0 TM 10 0 0 TM 12 1 0 TM 10 0 0", 6, 18, 0),
        ("BS 1 TM 6 0 0 TM 8 0 0 TM 8 0 0", 6, 13, 0),
    ]);
}

/// "direction, term [...] wrong" in an ST; the record begins at 10, or at 15 for the second.
#[test]
fn refusal_7_events() {
    all_refused(&[
        ("BS 1 TM 0 0 0 SK ST 1 2 0", 7, 10, 0),
        ("BS 1 TM 0 0 0 SK ST 1 255 0", 7, 10, 0),
        ("BS 1 TM 0 0 0 SK ST 1 1 1", 7, 10, 0),
        ("BS 1 TM 0 0 0 SK ST 1 0 255", 7, 10, 0),
        ("BS 1 SK ST 1 1 0", 7, 5, 0),
        ("BS 1 TM 0 0 0 SK ST 2 1 0 1 1", 7, 10, 0),
        ("BS 1 TM 0 0 0 SK ST 1 1 0 ST 1 1 9", 7, 15, 0),
        // Completeness comes first.
        ("BS 1 TM 0 0 0 SK ST 2 2 0", 1, 10, 0),
    ]);
}

/// "node or OR direction wrong": strand 0 sends, then receives; strand 1 receives.
#[test]
fn refusal_7_pairs() {
    let drawn = "BS 1 TM 0 0 0 SK ST 2 0 0 1 0 ST 1 1 0";
    let wrong = [
        "OR 2 0 1 0",
        "OR 0 0 2 0",
        "OR 0 2 1 0",
        "OR 0 0 1 1",
        "OR 255 0 1 0",
        "OR 0 0 0 255",
        // From a reception, to a send, and both.
        "OR 0 1 1 0",
        "OR 0 0 0 0",
        "OR 1 0 0 0",
    ];
    for pair in wrong {
        all_refused(&[(&format!("{drawn} {pair}"), 7, 22, 0)]);
    }
    all_good(&[(&format!("{drawn} OR 0 0 1 0 OR 0 0 0 1 EN"), 1, 1)]);
}

/// The nodes of an OR are those of its own skeleton: strand 1 stands only in skeleton 0.
#[test]
fn refusal_7_pair_into_the_other_skeleton() {
    let text = "BS 1 TM 0 0 0 SK ST 1 0 0 ST 1 1 0 SK ST 1 0 0 OR 0 0 1 0";
    all_refused(&[(text, 7, 27, 0)]);
}

/// "NO/UO not an atom": kinds 2 to 9 are atoms.
#[test]
fn refusal_7_no_atom() {
    let terms = "BS 1 TM 0 0 0 TM 1 0 0 TM 2 0 0 TM 10 2 2 TM 11 2 2 TM 12 2 0 SK ST 1 0 2";
    for mark in ["NO", "UO"] {
        for term in [0, 1, 3, 4, 5, 6, 255] {
            // BS, six TM, SK and one ST of height 1.
            all_refused(&[(&format!("{terms} {mark} {term}"), 7, 40, 0)]);
        }
    }
    all_good(&[(&format!("{terms} UO 2 EN"), 6, 1)]);
}

#[test]
fn refusal_8_bytes_after_the_end() {
    all_refused(&[
        ("BS 1 TM 0 0 0 SK ST 1 1 0 EN 0", 8, 17, 0),
        ("BS 1 TM 0 0 0 SK ST 1 1 0 EN EN", 8, 17, 0),
        ("BS 1 TM 0 0 0 SK ST 1 1 0 SK ST 1 1 0 EN SK", 8, 24, 0),
    ]);
}

/// "key without inverse: lowest such term", used or not.
#[test]
fn refusal_9_inverses() {
    all_refused(&[
        ("BS 1 TM 6 0 0 SK ST 1 1 0 EN", 9, 0, 0),
        ("BS 1 TM 0 0 0 TM 6 0 0 SK ST 1 1 0 EN", 9, 1, 0),
        ("BS 1 TM 4 0 0 TM 7 0 0 SK ST 1 1 0 EN", 9, 1, 0),
        (
            "BS 1 TM 6 0 0 TM 6 1 0 TM 6 2 0 TM 8 0 0 SK ST 1 1 0 EN",
            9,
            1,
            0,
        ),
        (
            "BS 1 TM 6 0 0 TM 4 0 0 TM 7 1 0 TM 8 0 0 SK ST 1 1 0 SK ST 1 1 0 EN",
            9,
            2,
            0,
        ),
    ]);
    all_good(&[(
        "BS 1 TM 6 0 0 TM 4 0 0 TM 7 1 0 TM 8 2 0 TM 8 0 0 SK ST 1 1 0 EN",
        5,
        1,
    )]);
}

/// "precedence has a cycle", place 0, in the skeleton that has it.
#[test]
fn refusal_10_cycles() {
    let answering = "ST 2 1 0 0 0";
    let round = format!("SK {answering} {answering} OR 0 1 1 0 OR 1 1 0 0");
    let cases = [
        // Backwards along one strand.
        ("BS 1 TM 0 0 0 SK ST 2 1 0 0 0 OR 0 1 0 0 EN".to_string(), 0),
        (format!("BS 1 TM 0 0 0 {round} EN"), 0),
        (format!("BS 1 TM 0 0 0 SK ST 1 1 0 {round} EN"), 1),
        (
            format!(
                "BS 1 TM 0 0 0 SK {} OR 0 1 1 0 OR 1 1 2 0 OR 2 1 0 0 EN",
                times(3, answering)
            ),
            0,
        ),
    ];
    for (text, skeleton) in &cases {
        all_refused(&[(text, 10, 0, *skeleton)]);
    }
    // Two pairs that cross without a cycle.
    let sends_first = "ST 2 0 0 1 0";
    let crossing = format!("SK {sends_first} {sends_first} OR 0 0 1 1 OR 1 0 0 1");
    all_good(&[(&format!("BS 1 TM 0 0 0 {crossing} EN"), 1, 1)]);
}

/// "A non-originating atom is carried nowhere". 0 text, 1 symmetric key, 2 the text under the
/// key, 3 a pair of 2 and 0, 4 the hash of the text, 5 the hash 4 under the key.
const CARRIERS: &str = "BS 1 TM 2 0 0 TM 5 0 0 TM 11 0 1 TM 10 2 0 TM 12 0 0 TM 11 4 1 SK ST 1 1 0";

#[test]
fn refusal_11_carried() {
    for message in [0, 2, 3] {
        for direction in [0, 1] {
            let text = format!("{CARRIERS} SK ST 1 {direction} {message} NO 0 EN");
            all_refused(&[(&text, 11, 0, 1)]);
        }
    }
    // A key and what is hashed are not carried, but they occur.
    all_good(&[(&format!("{CARRIERS} SK ST 1 1 2 NO 1 EN"), 6, 2)]);
    all_good(&[(&format!("{CARRIERS} SK ST 1 1 5 NO 0 NO 1 EN"), 6, 2)]);
}

/// The inverse of a key, a public key and a long-term key carry no key and no name.
#[test]
fn atoms_carry_nothing_further() {
    all_good(&[
        (
            "BS 1 TM 6 0 0 TM 8 0 0 SK ST 1 1 1 NO 0 SK ST 1 1 0 NO 1 EN",
            2,
            2,
        ),
        (
            "BS 1 TM 4 0 0 TM 7 0 0 TM 8 1 0 TM 9 0 0 SK ST 2 1 1 1 3 NO 0 NO 2 EN",
            4,
            1,
        ),
    ]);
}

/// "An atom originates on a strand if some event there carries it and the first that does is a
/// send"; 12 unless that is so on exactly one strand.
#[test]
fn refusal_12_origins() {
    let terms = "BS 1 TM 2 0 0 TM 2 1 0 TM 5 0 0 TM 11 0 2";
    let nowhere = format!("{terms} SK ST 1 0 1 UO 0 EN");
    let only_received = format!("{terms} SK ST 1 1 0 UO 0 EN");
    let received_first = format!("{terms} SK ST 2 1 0 0 0 UO 0 EN");
    let two_strands = format!("{terms} SK ST 1 0 0 ST 1 0 3 UO 0 EN");
    let only_a_key = format!("{terms} SK ST 1 0 3 UO 2 EN");
    let second_skeleton = format!("{terms} SK ST 1 0 0 UO 0 SK ST 1 1 1 UO 1 EN");
    all_refused(&[
        (&nowhere, 12, 0, 0),
        (&only_received, 12, 0, 0),
        (&received_first, 12, 0, 0),
        (&two_strands, 12, 0, 0),
        (&only_a_key, 12, 2, 0),
        (&second_skeleton, 12, 1, 1),
    ]);
    // Sent twice on one strand, and passed on by another, it originates once.
    let passed_on = format!("{terms} SK ST 2 0 0 0 3 ST 2 1 3 0 0 OR 0 1 1 0 UO 0 EN");
    all_good(&[(&passed_on, 4, 1)]);
}

/// "every reception that carries it comes after its origin".
#[test]
fn refusal_13_receptions() {
    let terms = "BS 1 TM 2 0 0 TM 2 1 0 TM 5 0 0 TM 11 0 2";
    let unordered = format!("{terms} SK ST 1 0 0 ST 1 1 0 UO 0 EN");
    let in_a_body = format!("{terms} SK ST 1 0 0 ST 1 1 3 UO 0 EN");
    let second_one = format!("{terms} SK ST 1 0 0 ST 1 1 0 ST 1 1 0 OR 0 0 1 0 UO 0 EN");
    // Only (1,1) comes after strand 0; x is received at (1,0).
    let too_late = format!("{terms} SK ST 2 0 0 0 1 ST 2 1 0 1 1 OR 0 1 1 1 UO 0 EN");
    let in_the_second = format!("{terms} SK ST 1 1 1 SK ST 1 0 1 ST 1 1 1 UO 1 EN");
    all_refused(&[
        (&unordered, 13, 0, 0),
        (&in_a_body, 13, 0, 0),
        (&second_one, 13, 0, 0),
        (&too_late, 13, 0, 0),
        (&in_the_second, 13, 1, 1),
    ]);
    // After the origin by a pair and succession; along one strand; and over a third strand.
    let later = format!("{terms} SK ST 2 0 0 0 1 ST 2 1 1 1 0 OR 0 1 1 0 UO 0 EN");
    let own = format!("{terms} SK ST 2 0 0 1 0 UO 0 EN");
    let over = format!("{terms} SK ST 1 0 0 ST 2 1 1 0 1 ST 1 1 3 OR 0 0 1 0 OR 1 1 2 0 UO 0 EN");
    all_good(&[(&later, 4, 1), (&own, 4, 1), (&over, 4, 1)]);
}

/// 0 text, 1 name, 2 name, 3 public key of 1, 4 its inverse, 5 long-term key of 1 and 2,
/// 6 asymmetric key, 7 its inverse, 8 the text under the long-term key, 9 hash of 8.
const ATOMS: &str = "BS 1 TM 2 0 0 TM 4 0 0 TM 4 1 0 TM 7 1 0 TM 8 3 0 TM 9 1 2 TM 6 0 0
    TM 8 6 0 TM 11 0 5 TM 12 8 0";

/// "its variables occur in some event" of its own skeleton.
#[test]
fn refusal_14_variables() {
    let lacking = ["1 0", "0 1", "0 3", "0 4", "1 5", "2 5", "0 6", "0 7"];
    for case in lacking {
        let (event, atom) = case.split_once(' ').unwrap();
        let place = atom.parse().unwrap();
        let alone = format!("{ATOMS} SK ST 1 1 {event} NO {atom} EN");
        all_refused(&[(&alone, 14, place, 0)]);
        // The other skeleton's events do not count.
        let both = format!("{ATOMS} SK ST 1 1 9 SK ST 1 1 {event} NO {atom} EN");
        all_refused(&[(&both, 14, place, 1)]);
    }
}

/// The atom itself need not occur, and occurring goes into keys, hashes and atoms: name 1 occurs
/// in its public key and that in its inverse, both names in the hash.
#[test]
fn variables_occur_anywhere() {
    let found = [
        "1 3", "1 4", "3 4", "4 1", "9 1", "9 3", "9 5", "6 7", "7 6",
    ];
    for case in found {
        let (event, atom) = case.split_once(' ').unwrap();
        let text = format!("{ATOMS} SK ST 1 1 {event} NO {atom} EN");
        all_good(&[(&text, 10, 1)]);
    }
}

/// "After EN: 8, 9, then skeleton by skeleton: 10; NO atoms [...]; UO atoms likewise".
#[test]
fn order_after_the_end() {
    let cycle = "ST 2 1 0 0 0 OR 0 1 0 0";
    let cases = [
        // 8 before 9.
        ("BS 1 TM 6 0 0 SK ST 1 1 0 EN 0".to_string(), 8, 17, 0),
        // 9 before 10.
        (format!("BS 1 TM 6 0 0 SK {cycle} EN"), 9, 0, 0),
        // 10 before 14 and 12.
        (
            format!("BS 1 TM 2 0 0 TM 2 1 0 SK {cycle} NO 1 UO 1 EN"),
            10,
            0,
            0,
        ),
        // 14 before 12, 11 before 12: NO before UO, whatever the numbers.
        (
            "BS 1 TM 2 0 0 TM 2 1 0 TM 2 2 0 SK ST 1 1 2 NO 1 UO 0 EN".to_string(),
            14,
            1,
            0,
        ),
        (
            "BS 1 TM 2 0 0 TM 2 1 0 SK ST 1 1 1 NO 1 UO 0 EN".to_string(),
            11,
            1,
            0,
        ),
        // Skeleton 0 with 12 before skeleton 1 with 10.
        (
            format!("BS 1 TM 2 0 0 SK ST 1 1 0 UO 0 SK {cycle} EN"),
            12,
            0,
            0,
        ),
    ];
    for (text, number, place, skeleton) in &cases {
        all_refused(&[(text, *number, *place, *skeleton)]);
    }
}

/// "NO atoms by rising term number, 14 or 11; UO atoms likewise, 12 then 13" for each atom.
#[test]
fn order_by_rising_number() {
    let texts = "BS 1 TM 2 0 0 TM 2 1 0 TM 2 2 0";
    let cases = [
        (format!("{texts} SK ST 1 1 0 NO 2 NO 1 EN"), 14, 1),
        (format!("{texts} SK ST 2 1 1 1 2 NO 2 NO 1 EN"), 11, 1),
        (format!("{texts} SK ST 1 1 1 NO 2 NO 1 EN"), 11, 1),
        (format!("{texts} SK ST 1 1 2 NO 2 NO 1 EN"), 14, 1),
        (format!("{texts} SK ST 1 1 0 UO 2 UO 1 EN"), 12, 1),
        // Text 1 is received without order, text 2 has no origin.
        (format!("{texts} SK ST 1 0 1 ST 1 1 1 UO 2 UO 1 EN"), 13, 1),
        // Text 1 has no origin, text 2 is received without order.
        (format!("{texts} SK ST 1 0 2 ST 1 1 2 UO 2 UO 1 EN"), 12, 1),
        (
            format!("{texts} SK ST 2 0 1 0 2 ST 2 1 1 1 2 UO 2 UO 1 EN"),
            13,
            1,
        ),
    ];
    for (text, number, place) in &cases {
        all_refused(&[(text, *number, *place, 0)]);
    }
}

/// "Reading stops at the first faulty record."
#[test]
fn the_first_faulty_record_decides() {
    all_refused(&[
        ("BS 1 TM 13 0 0 XX", 5, 3, 0),
        ("BS 1 TM 2 0 0 TM 2 0 0 TM 13 0 0", 6, 8, 0),
        ("BS 1 TM 6 0 0 SK ST 1 2 0 EN 0", 7, 10, 0),
        ("BS 1 TM 2 0 0 SK ST 1 1 0 UO 0 XX", 2, 18, 0),
        ("BS 1 TM 2 0 0 SK ST 1 1 0 UO 0", 1, 18, 0),
    ]);
}

/// "Repeated OR, NO and UO records are harmless."
#[test]
fn repeats_are_harmless() {
    all_good(&[(
        "BS 1 TM 2 0 0 TM 5 0 0 TM 11 0 1 SK ST 1 0 2 ST 1 1 2
         OR 0 0 1 0 OR 0 0 1 0 NO 1 NO 1 UO 0 UO 0 EN",
        3,
        1,
    )]);
}
