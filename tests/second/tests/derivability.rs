//! Derivable before, reach and realized, each answer worked out from the rules of 000, chapter 9.

mod common;

use common::*;

/// Which of these terms can be derived before the reception (0, position) of skeleton 0.
fn derived(sheet: &[u8], position: u8, terms: &[u8]) -> Vec<u8> {
    let is_derived = |&&term: &&u8| match second::derivable(sheet, 0, 0, position, term) {
        YES => true,
        NO => false,
        other => panic!("answer {other:#x}"),
    };
    terms.iter().filter(is_derived).copied().collect()
}

/// Rule 9.2: both halves of a pair held are held. 0 x, 1 y, 2 the pair, 3 the pair turned round.
#[test]
fn a_pair_is_split_and_joined() {
    let terms = "BS 1 TM 2 0 0 TM 2 1 0 TM 10 0 1 TM 10 1 0";
    let sheet = bytes(&format!("{terms} SK ST 2 0 2 1 3 UO 0 UO 1 EN"));
    assert_eq!(derived(&sheet, 1, &[0, 1, 2, 3]), [0, 1, 2, 3]);
    assert_eq!(second::realized(&sheet, 0), YES);
}

/// A pair is split also when one of its halves is held already.
#[test]
fn a_pair_is_split_though_one_half_is_held() {
    let terms = "BS 1 TM 2 0 0 TM 2 1 0 TM 10 0 1";
    for half in [0, 1] {
        let sheet = bytes(&format!("{terms} SK ST 3 0 {half} 0 2 1 2 UO 0 UO 1 EN"));
        assert_eq!(derived(&sheet, 2, &[0, 1, 2]), [0, 1, 2]);
    }
}

/// Rule 9.3 with a symmetric key, which is its own inverse. 0 x, 1 k, 2 x under k.
#[test]
fn a_body_is_opened_when_the_key_is_held() {
    let terms = "BS 1 TM 2 0 0 TM 5 0 0 TM 11 0 1";
    let locked = bytes(&format!("{terms} SK ST 2 0 2 1 0 NO 1 UO 0 EN"));
    assert_eq!(derived(&locked, 1, &[0, 1, 2]), [2]);
    assert_eq!(second::realized(&locked, 0), open_at(0, 1));
    let key_sent = bytes(&format!("{terms} SK ST 3 0 2 0 1 1 0 UO 0 UO 1 EN"));
    assert_eq!(derived(&key_sent, 2, &[0, 1, 2]), [0, 1, 2]);
    let key_free = bytes(&format!("{terms} SK ST 2 0 2 1 0 UO 0 EN"));
    assert_eq!(derived(&key_free, 1, &[0, 1, 2]), [0, 1, 2]);
}

/// Decrypting takes the inverse of the key: 0 x, 1 a, 2 its inverse, 3 x under a, 4 x under 2.
#[test]
fn asymmetric_keys_open_with_their_inverse() {
    let terms = "BS 1 TM 2 0 0 TM 6 0 0 TM 8 1 0 TM 11 0 1 TM 11 0 2";
    let sealed = bytes(&format!("{terms} SK ST 2 0 3 1 0 NO 2 UO 0 EN"));
    assert_eq!(derived(&sealed, 1, &[0, 1, 2, 3, 4]), [1, 3]);
    let signed = bytes(&format!("{terms} SK ST 2 0 4 1 0 NO 2 UO 0 EN"));
    assert_eq!(derived(&signed, 1, &[0, 1, 2, 3, 4]), [0, 1, 3, 4]);
    let public_withheld = bytes(&format!("{terms} SK ST 2 0 4 1 0 NO 1 UO 0 EN"));
    assert_eq!(derived(&public_withheld, 1, &[0, 1, 2, 3, 4]), [2, 4]);
}

/// The same for the public key of a name: 0 x, 1 name, 2 public key, 3 inverse, 4 x under 2,
/// 5 x under 3.
#[test]
fn public_keys_of_names_open_with_their_inverse() {
    let terms = "BS 1 TM 2 0 0 TM 4 0 0 TM 7 1 0 TM 8 2 0 TM 11 0 2 TM 11 0 3";
    let sealed = bytes(&format!("{terms} SK ST 2 0 4 1 0 NO 3 UO 0 EN"));
    assert_eq!(derived(&sealed, 1, &[0, 1, 2, 3, 4, 5]), [1, 2, 4]);
    let signed = bytes(&format!("{terms} SK ST 2 0 5 1 0 NO 3 UO 0 EN"));
    assert_eq!(derived(&signed, 1, &[0, 1, 2, 3, 4, 5]), [0, 1, 2, 4, 5]);
}

/// A long-term key is an atom: holding its names gives nothing, not being withheld gives it.
/// 0 x, 1 and 2 names, 3 their key, 4 the key of the names turned round, 5 x under 3.
#[test]
fn long_term_keys_are_atoms() {
    let terms = "BS 1 TM 2 0 0 TM 4 0 0 TM 4 1 0 TM 9 1 2 TM 9 2 1 TM 11 0 3";
    let withheld = bytes(&format!("{terms} SK ST 2 0 5 1 0 NO 3 UO 0 EN"));
    assert_eq!(derived(&withheld, 1, &[0, 1, 2, 3, 4, 5]), [1, 2, 4, 5]);
    let free = bytes(&format!("{terms} SK ST 2 0 5 1 0 NO 4 UO 0 EN"));
    assert_eq!(derived(&free, 1, &[0, 1, 2, 3, 4, 5]), [0, 1, 2, 3, 5]);
}

/// "Asking for a key only among earlier messages: it may be built from parts." 0 x, 1 and 2
/// keys, 3 their pair, 4 hash of 1, 5 key 2 under key 1, then x under each of 3, 4 and 5.
#[test]
fn a_key_is_built_from_parts() {
    let terms = "BS 1 TM 2 0 0 TM 5 0 0 TM 5 1 0 TM 10 1 2 TM 12 1 0 TM 11 2 1
                 TM 11 0 3 TM 11 0 4 TM 11 0 5";
    for body in [6, 7, 8] {
        let sheet = bytes(&format!(
            "{terms} SK ST 4 0 {body} 0 1 0 2 1 0 UO 0 UO 1 UO 2 EN"
        ));
        assert_eq!(second::derivable(&sheet, 0, 0, 3, 0), YES);
        assert_eq!(second::built_keys(&sheet, 0, 0, 3), 1);
        let part_lacking = bytes(&format!("{terms} SK ST 2 0 {body} 1 0 NO 1 UO 0 EN"));
        assert_eq!(second::derivable(&part_lacking, 0, 0, 1, 0), NO);
        assert_eq!(second::built_keys(&part_lacking, 0, 0, 1), 0);
    }
}

/// A compound key that was sent whole serves though its part is withheld. 0 x, 1 k,
/// 2 hash of k, 3 x under that hash.
#[test]
fn a_compound_key_may_be_held_whole() {
    let terms = "BS 1 TM 2 0 0 TM 5 0 0 TM 12 1 0 TM 11 0 2";
    let sheet = bytes(&format!("{terms} SK ST 3 0 3 0 2 1 0 NO 1 UO 0 EN"));
    assert_eq!(derived(&sheet, 2, &[0, 1, 2, 3]), [0, 2, 3]);
    assert_eq!(second::built_keys(&sheet, 0, 0, 2), 0);
}

/// A hash is made but never opened. 0 x, 1 hash of x, 2 hash of that, 3 x with itself.
#[test]
fn a_hash_stays_shut() {
    let sheet = bytes("BS 1 TM 2 0 0 TM 12 0 0 TM 12 1 0 TM 10 0 0 SK ST 2 0 1 1 2 NO 0 EN");
    assert_eq!(derived(&sheet, 1, &[0, 1, 2, 3]), [1, 2]);
}

/// Atoms inside atoms are not taken out: an inverse sent does not give the key (001), nor the
/// key its inverse. 0 a, 1 its inverse.
#[test]
fn a_key_does_not_give_its_inverse() {
    let inverse_sent = bytes("BS 1 TM 6 0 0 TM 8 0 0 SK ST 2 0 1 1 1 NO 0 EN");
    assert_eq!(derived(&inverse_sent, 1, &[0, 1]), [1]);
    let key_sent = bytes("BS 1 TM 6 0 0 TM 8 0 0 SK ST 2 0 0 1 0 NO 1 EN");
    assert_eq!(derived(&key_sent, 1, &[0, 1]), [0]);
}

/// "all tags, all message variables and all atoms not withheld", and what is made of them.
/// 0 tag, 1 message variable, 2 text, 3 withheld text, 4 pair of 0 and 1, 5 text 2 under 4,
/// 6 pair of 1 and 3, 7 hash of 3.
#[test]
fn what_needs_no_hearing() {
    let sheet = bytes(
        "BS 1 TM 0 0 0 TM 1 0 0 TM 2 0 0 TM 2 1 0 TM 10 0 1 TM 11 2 4 TM 10 1 3 TM 12 3 0
         SK ST 1 1 7 NO 3 EN",
    );
    assert_eq!(
        derived(&sheet, 0, &[0, 1, 2, 3, 4, 5, 6, 7]),
        [0, 1, 2, 4, 5]
    );
    assert_eq!(second::reach(&sheet, 0, 0, 0), reach(5));
}

/// "Earlier messages: those of all sends that precede the reception": not those beside it, not
/// later ones, not receptions. Strand 0 sends x, y, z; strand 1 receives three times and comes
/// after the second send from its second reception on.
#[test]
fn only_sends_that_precede_count() {
    let sheet = bytes(
        "BS 1 TM 2 0 0 TM 2 1 0 TM 2 2 0 TM 0 0 0
         SK ST 3 0 0 0 1 0 2 ST 3 1 3 1 3 1 3 OR 0 1 1 1 UO 0 UO 1 UO 2 EN",
    );
    let before = |position| [0, 1, 2].map(|term| second::derivable(&sheet, 0, 1, position, term));
    assert_eq!(before(0), [NO, NO, NO]);
    assert_eq!(before(1), [YES, YES, NO]);
    assert_eq!(before(2), [YES, YES, NO]);
}

/// A reception makes nothing known. x goes out only under a withheld key and comes in bare.
#[test]
fn receptions_are_no_earlier_messages() {
    let sheet =
        bytes("BS 1 TM 2 0 0 TM 5 0 0 TM 11 0 1 SK ST 1 0 2 ST 2 1 0 1 0 OR 0 0 1 0 NO 1 UO 0 EN");
    assert_eq!(second::derivable(&sheet, 0, 1, 1, 0), NO);
    assert_eq!(second::realized(&sheet, 0), open_at(1, 0));
}

/// Over two pairs and a strand between: strand 0 sends x, strand 1 hears a tag and sends a tag,
/// strand 2 hears x.
#[test]
fn precedence_goes_over_other_strands() {
    let drawn = "BS 1 TM 2 0 0 TM 0 0 0 SK ST 1 0 0 ST 2 1 1 0 1 ST 1 1 0";
    let sheet = bytes(&format!("{drawn} OR 0 0 1 0 OR 1 1 2 0 UO 0 EN"));
    assert_eq!(second::realized(&sheet, 0), YES);
}

/// Withheld atoms are those of the skeleton asked about. 0 x, 1 hash of x.
#[test]
fn each_skeleton_withholds_its_own() {
    let sheet = bytes("BS 1 TM 2 0 0 TM 12 0 0 SK ST 1 1 1 SK ST 1 1 1 NO 0 EN");
    assert_eq!(second::realized(&sheet, 0), YES);
    assert_eq!(second::realized(&sheet, 1), open_at(0, 0));
}

/// By hand: of 0 x (unique), 1 y, 2 k (withheld), 3 x under k, 4 pair of x and y, 5 hash of y,
/// 6 tag, 7 message variable, 8 y under k, the stranger has 1, 3, 5, 6 and 7.
#[test]
fn reach_counts_the_sheets_terms() {
    let sheet = bytes(
        "BS 1 TM 2 0 0 TM 2 1 0 TM 5 0 0 TM 11 0 2 TM 10 0 1 TM 12 1 0 TM 0 0 0 TM 1 0 0
         TM 11 1 2 SK ST 2 0 3 1 3 NO 2 UO 0 EN",
    );
    assert_eq!(
        derived(&sheet, 1, &[0, 1, 2, 3, 4, 5, 6, 7, 8]),
        [1, 3, 5, 6, 7]
    );
    assert_eq!(second::reach(&sheet, 0, 0, 1), reach(5));
}

/// "the first unrealized reception by strand, then position": (0,1) and (1,0) are both open.
#[test]
fn the_first_open_reception() {
    let sheet = bytes("BS 1 TM 2 0 0 TM 12 0 0 TM 0 0 0 SK ST 3 1 2 1 1 1 1 ST 1 1 1 NO 0 EN");
    assert_eq!(second::realized(&sheet, 0), open_at(0, 1));
}

/// A skeleton that only sends has nothing to explain.
#[test]
fn sends_alone_are_realized() {
    let sheet = bytes("BS 1 TM 2 0 0 SK ST 2 0 0 0 0 UO 0 EN");
    assert_eq!(second::realized(&sheet, 0), YES);
}

/// Keys 0 to n, each under the one before it, the first sent bare. With the bodies numbered in
/// the order in which they open, each round from the highest number down opens only one.
fn chain(length: usize) -> Vec<u8> {
    let keys: String = (0..=length).map(|k| format!(" TM 5 {k} 0 ")).collect();
    let bodies: String = (0..length)
        .map(|k| format!(" TM 11 {} {k} ", k + 1))
        .collect();
    let sends: String = (0..length)
        .map(|k| format!(" 0 {} ", length + 1 + k))
        .collect();
    let height = length + 2;
    let unique: String = (0..=length).map(|k| format!(" UO {k} ")).collect();
    bytes(&format!(
        "BS 1 {keys} {bodies} SK ST {height} 0 0 {sends} 1 {length} {unique} EN"
    ))
}

#[test]
fn a_chain_of_keys_is_followed_to_its_end() {
    let sheet = chain(14);
    assert_eq!(second::realized(&sheet, 0), YES);
    assert_eq!(second::reach(&sheet, 0, 0, 15), reach(15 + 14));
    assert_eq!(second::passes(&sheet, 0, 0, 15), 14);
}

/// Each term is the one before it twice, so as a tree it would have 2^190 leaves.
fn deep(kind: u8, event: &str) -> Vec<u8> {
    let levels: String = (0..190).map(|t| format!(" TM {kind} {t} {t} ")).collect();
    bytes(&format!("BS 1 TM 2 0 0 {levels} SK {event} UO 0 EN"))
}

#[test]
fn parts_in_many_places_are_walked_once() {
    let pairs_split = deep(10, "ST 2 0 190 1 0");
    assert_eq!(second::realized(&pairs_split, 0), YES);
    assert_eq!(second::reach(&pairs_split, 0, 0, 1), reach(191));
    let pairs_joined = deep(10, "ST 2 0 0 1 190");
    assert_eq!(second::realized(&pairs_joined, 0), YES);
    let under_themselves = deep(11, "ST 2 0 0 1 190");
    assert_eq!(second::reach(&under_themselves, 0, 0, 1), reach(191));
    // Only the outermost is held, and its key is what it hides.
    let shut = deep(11, "ST 2 0 190 1 0");
    assert_eq!(second::reach(&shut, 0, 0, 1), reach(1));
}

/// "15: no such skeleton, term, or reception asked for".
#[test]
fn refusal_15() {
    let sheet = blanchet();
    let none = refused(15, 0, 0);
    for (skeleton, strand, position) in [
        (2, 0, 1),
        (255, 0, 1),
        (0, 1, 1),
        (0, 255, 0),
        (0, 0, 2),
        (0, 0, 255),
        (1, 0, 2),
        // Sends.
        (0, 0, 0),
        (1, 1, 1),
    ] {
        assert_eq!(second::reach(&sheet, skeleton, strand, position), none);
        assert_eq!(
            second::derivable(&sheet, skeleton, strand, position, 0),
            none
        );
    }
    assert_eq!(second::derivable(&sheet, 0, 0, 1, 8), NO);
    assert_eq!(second::derivable(&sheet, 0, 0, 1, 9), none);
    assert_eq!(second::derivable(&sheet, 0, 0, 1, 255), none);
    assert_eq!(second::realized(&sheet, 2), none);
    let one_skeleton = bytes("BS 1 TM 0 0 0 SK ST 1 1 0 EN");
    assert_eq!(second::realized(&one_skeleton, 1), none);
}

/// "A question gives the sheet's refusal first."
#[test]
fn the_sheets_refusal_comes_first() {
    let bad = bytes("BS 1 TM 2 0 0 SK ST 1 1 0 UO 0 EN");
    let twelve = refused(12, 0, 0);
    assert_eq!(second::derivable(&bad, 9, 9, 9, 9), twelve);
    assert_eq!(second::reach(&bad, 9, 9, 9), twelve);
    assert_eq!(second::realized(&bad, 9), twelve);
}
