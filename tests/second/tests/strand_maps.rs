//! Map and list, worked out from the six rules.

mod common;

use common::*;

const NONE: u8 = 255;

/// The first rule that a map from skeleton 0 to 1 breaks, or the images of the first terms.
fn mapped<const N: usize>(sheet: &[u8], map: &[u8]) -> Result<[u8; N], u64> {
    let mut images = [CANARY; 256];
    let answer = second::map(sheet, 0, 1, map, &mut images);
    if answer == YES {
        let terms = (second::sheet(sheet) >> 32) as usize;
        assert!(images[terms..].iter().all(|&byte| byte == CANARY));
        return Ok(*images.first_chunk().unwrap());
    }
    assert_eq!(images, [CANARY; 256], "a no writes nothing");
    let rule = answer >> 8;
    assert_eq!(answer, broken(rule));
    Err(rule)
}

/// The rule that a map from skeleton 0 to 1 breaks.
fn breaks(sheet: &[u8], map: &[u8]) -> u64 {
    mapped::<0>(sheet, map).expect_err("a broken rule")
}

/// "(1) one byte per source strand, each a target strand".
#[test]
fn rule_1() {
    let sheet = bytes("BS 1 TM 2 0 0 SK ST 1 0 0 ST 1 0 0 SK ST 1 0 0 ST 1 0 0 ST 1 0 0 EN");
    for map in [&[][..], &[0], &[0, 0, 0], &[3, 3], &[0, 3], &[255, 0]] {
        assert_eq!(breaks(&sheet, map), 1, "{map:?}");
    }
    assert_eq!(mapped(&sheet, &[2, 2]), Ok([0]));
    // From the larger skeleton to the smaller, strand 2 is no target.
    assert_eq!(
        second::map(&sheet, 1, 0, &[0, 1, 2], &mut [0; 1]),
        broken(1)
    );
}

/// "(2) target height at least the source's, equal directions at equal positions".
#[test]
fn rule_2() {
    let sheet = bytes(
        "BS 1 TM 2 0 0 SK ST 2 0 0 1 0
         SK ST 1 0 0 ST 2 0 0 0 0 ST 2 1 0 1 0 ST 2 0 0 1 0 ST 3 0 0 1 0 0 0 EN",
    );
    let broken = [0, 1, 2].map(|strand| breaks(&sheet, &[strand]));
    assert_eq!(broken, [2, 2, 2]);
    assert_eq!(listed::<1>(&sheet, 0, 1), [[3], [4]]);
}

/// "message variable: any term; asymmetric key: any kind 6, 7 or 8 term; symmetric key: kind 5
/// or 9; others: own kind"; a tag is no variable and stays.
#[test]
fn rule_3_keeps_sorts() {
    // One term of each kind 0 to 12 but that 8 is the inverse of 6 and 13 that of 7; then a
    // second of each kind 0 to 6, numbered 14 to 20, and the inverse of the last.
    let terms = "BS 1 TM 0 0 0 TM 1 0 0 TM 2 0 0 TM 3 0 0 TM 4 0 0 TM 5 0 0 TM 6 0 0 TM 7 4 0
        TM 8 6 0 TM 9 4 4 TM 10 2 2 TM 11 2 5 TM 12 2 0 TM 8 7 0
        TM 0 1 0 TM 1 1 0 TM 2 1 0 TM 3 1 0 TM 4 1 0 TM 5 1 0 TM 6 1 0 TM 8 20 0";
    let all: Vec<u8> = (0..22).collect();
    let fitting: [(u8, &[u8]); 7] = [
        (0, &[0]),
        (1, &all),
        (2, &[2, 16]),
        (3, &[3, 17]),
        (4, &[4, 18]),
        (5, &[5, 9, 19]),
        (6, &[6, 7, 8, 13, 20, 21]),
    ];
    for (variable, images) in fitting {
        for &goal in &all {
            let sheet = bytes(&format!("{terms} SK ST 1 0 {variable} SK ST 1 0 {goal} EN"));
            let answer = mapped::<22>(&sheet, &[0]);
            if !images.contains(&goal) {
                assert_eq!(answer, Err(3), "{variable} to {goal}");
                continue;
            }
            let mut expected = [NONE; 22];
            if variable > 0 {
                expected[usize::from(variable)] = goal;
            }
            assert_eq!(answer, Ok(expected), "{variable} to {goal}");
        }
    }
}

/// Compound terms go part by part to terms of their own kind. 0 x, 1 k, 2 y, 3 l; then the pair,
/// the encryption and the hash of each.
#[test]
fn rule_3_goes_into_parts() {
    let terms = "BS 1 TM 2 0 0 TM 5 0 0 TM 2 1 0 TM 5 1 0
        TM 10 0 1 TM 10 2 3 TM 11 0 1 TM 11 2 3 TM 12 0 0 TM 12 2 0 TM 10 1 0";
    let sheet = |from, to| bytes(&format!("{terms} SK ST 1 0 {from} SK ST 1 0 {to} EN"));
    let both = [2, 3, NONE, NONE];
    assert_eq!(mapped(&sheet(4, 5), &[0]), Ok(both));
    assert_eq!(mapped(&sheet(6, 7), &[0]), Ok(both));
    assert_eq!(mapped(&sheet(8, 9), &[0]), Ok([2, NONE, NONE, NONE]));
    for (from, to) in [(4, 7), (6, 5), (8, 7), (8, 2), (4, 10), (4, 2)] {
        assert_eq!(breaks(&sheet(from, to), &[0]), 3);
    }
}

/// One substitution for all messages: a variable has one image, but two may share one.
#[test]
fn rule_3_is_one_substitution() {
    let terms = "BS 1 TM 2 0 0 TM 2 1 0 TM 2 2 0 TM 2 3 0";
    let same = bytes(&format!("{terms} SK ST 2 0 0 0 0 SK ST 2 0 2 0 3 EN"));
    assert_eq!(breaks(&same, &[0]), 3);
    let across = bytes(&format!(
        "{terms} SK ST 1 0 0 ST 1 0 0 SK ST 1 0 2 ST 1 0 3 EN"
    ));
    assert_eq!(breaks(&across, &[0, 1]), 3);
    let together = bytes(&format!("{terms} SK ST 2 0 0 0 1 SK ST 2 0 2 0 2 EN"));
    assert_eq!(mapped(&together, &[0]), Ok([2, 2, NONE, NONE]));
}

/// A message variable takes a whole term; where it stands again it has to be the same.
/// 0 m, 1 x, 2 pair of x and x, 3 pair of m and x, 4 pair of 2 and x, 5 pair of x and 2.
#[test]
fn rule_3_message_variables_take_compounds() {
    let terms = "BS 1 TM 1 0 0 TM 2 0 0 TM 10 1 1 TM 10 0 1 TM 10 2 1 TM 10 1 2";
    let sheet = |events: &str| bytes(&format!("{terms} {events} EN"));
    let whole = sheet("SK ST 1 0 3 SK ST 1 0 4");
    assert_eq!(mapped(&whole, &[0]), Ok([2, 1, NONE, NONE]));
    // The half x would have to be the pair 2.
    assert_eq!(breaks(&sheet("SK ST 1 0 3 SK ST 1 0 5"), &[0]), 3);
    let again = sheet("SK ST 2 0 3 0 0 SK ST 2 0 4 0 2");
    assert_eq!(mapped(&again, &[0]), Ok([2, 1, NONE, NONE]));
    let otherwise = sheet("SK ST 2 0 3 0 0 SK ST 2 0 4 0 1");
    assert_eq!(breaks(&otherwise, &[0]), 3);
}

/// "an asymmetric key and its inverse are each other's inverse, so the inverse taken twice gives
/// the key back, also after a substitution". 0 a, 1 its inverse, 2 b, 3 its inverse.
#[test]
fn rule_3_inverses() {
    let terms = "BS 1 TM 6 0 0 TM 6 1 0 TM 8 0 0 TM 8 1 0";
    let sheet = |events: &str| bytes(&format!("{terms} {events} EN"));
    let none = [NONE; 3];
    let image_of_a = |image| {
        let [b, c, d] = none;
        Ok([image, b, c, d])
    };
    assert_eq!(
        mapped(&sheet("SK ST 1 0 2 SK ST 1 0 3"), &[0]),
        image_of_a(1)
    );
    assert_eq!(
        mapped(&sheet("SK ST 1 0 2 SK ST 1 0 1"), &[0]),
        image_of_a(3)
    );
    let both = sheet("SK ST 2 0 0 0 2 SK ST 2 0 3 0 1");
    assert_eq!(mapped(&both, &[0]), image_of_a(3));
    let both_the_same = sheet("SK ST 2 0 0 0 2 SK ST 2 0 1 0 1");
    assert_eq!(breaks(&both_the_same, &[0]), 3);
}

/// The inverse of a name's public key goes only to such an inverse, as a name goes to a name.
/// 0 name A, 1 name B, 2 and 3 their public keys, 4 and 5 the inverses, 6 a key, 7 its inverse.
#[test]
fn rule_3_keys_of_names() {
    let terms = "BS 1 TM 4 0 0 TM 4 1 0 TM 7 0 0 TM 7 1 0 TM 8 2 0 TM 8 3 0 TM 6 0 0 TM 8 6 0";
    let sheet = |from, to| bytes(&format!("{terms} SK ST 1 0 {from} SK ST 1 0 {to} EN"));
    assert_eq!(mapped(&sheet(4, 5), &[0]), Ok([1, NONE]));
    assert_eq!(mapped(&sheet(2, 3), &[0]), Ok([1, NONE]));
    for (from, to) in [(4, 3), (4, 7), (4, 6), (2, 5), (2, 6), (2, 1)] {
        assert_eq!(breaks(&sheet(from, to), &[0]), 3);
    }
    // A key goes to a public key, and its inverse with it.
    let both = bytes(&format!("{terms} SK ST 2 0 6 0 7 SK ST 2 0 5 0 3 EN"));
    assert_eq!(
        mapped(&both, &[0]),
        Ok([NONE, NONE, NONE, NONE, NONE, NONE, 5, NONE])
    );
}

/// "the image of a source variable (one that occurs in a source event)", also one that occurs
/// only as a key or in an atom. 0 x, 1 name A, 2 name B, 3 key of A and B, 4 x under 3, 5 y,
/// 6 name C, 7 key of C and C, 8 y under 7, 9 a variable of the target only.
#[test]
fn images_of_variables_inside_keys() {
    let sheet = bytes(
        "BS 1 TM 2 0 0 TM 4 0 0 TM 4 1 0 TM 9 1 2 TM 11 0 3 TM 2 1 0 TM 4 2 0 TM 9 6 6
         TM 11 5 7 TM 2 2 0 SK ST 1 0 4 SK ST 2 0 8 1 9 EN",
    );
    let n = NONE;
    assert_eq!(mapped(&sheet, &[0]), Ok([5, 6, 6, n, n, n, n, n, n, n]));
}

/// "(4) precedence is kept". Each strand sends, then receives.
#[test]
fn rule_4() {
    let strand = "ST 2 0 0 1 0";
    let ordered = "OR 0 0 1 1";
    let sheet = |target: &str| {
        bytes(&format!(
            "BS 1 TM 0 0 0 SK {strand} {strand} {ordered} SK {target} EN"
        ))
    };
    let unordered = sheet(&format!("{strand} {strand}"));
    assert_eq!(breaks(&unordered, &[0, 1]), 4);
    assert_eq!(breaks(&unordered, &[1, 0]), 4);
    // On one strand succession orders the images.
    assert_eq!(listed::<2>(&unordered, 0, 1), [[0, 0], [1, 1]]);
    let one_way = sheet(&format!("{strand} {strand} {ordered}"));
    assert_eq!(listed::<2>(&one_way, 0, 1), [[0, 0], [0, 1], [1, 1]]);
    // Over a third strand that receives, then sends.
    let over = sheet(&format!(
        "{strand} {strand} ST 2 1 0 0 0 OR 0 0 2 0 OR 2 1 1 1"
    ));
    assert_eq!(listed::<2>(&over, 0, 1), [[0, 0], [0, 1], [1, 1]]);
}

/// "(5) images of NO atoms are NO atoms". 0 k, 1 l, 2 and 3 their hashes.
#[test]
fn rule_5() {
    let terms = "BS 1 TM 5 0 0 TM 5 1 0 TM 12 0 0 TM 12 1 0";
    let sheet = |atoms: &str| bytes(&format!("{terms} SK ST 1 0 2 NO 0 SK ST 1 0 3 {atoms} EN"));
    assert_eq!(breaks(&sheet(""), &[0]), 5);
    assert_eq!(mapped(&sheet("NO 1"), &[0]), Ok([1, NONE]));
    // The target may withhold more than the source.
    let freer = bytes(&format!("{terms} SK ST 1 0 2 SK ST 1 0 3 NO 1 EN"));
    assert_eq!(mapped(&freer, &[0]), Ok([1, NONE]));
}

/// The image of an NO atom that is part of no event may be on no sheet. 0 name A, 1 B, 2 C,
/// 3 public key of A, 4 its inverse, 5 public key of B, 6 its inverse, 7 key of A and B,
/// 8 key of B and A, 9 pair of A and B, 10 pair of B and A, 11 pair of A and C.
#[test]
fn rule_5_images_beside_the_events() {
    let terms = "BS 1 TM 4 0 0 TM 4 1 0 TM 4 2 0 TM 7 0 0 TM 8 3 0 TM 7 1 0 TM 8 5 0
        TM 9 0 1 TM 9 1 0 TM 10 0 1 TM 10 1 0 TM 10 0 2";
    let private = bytes(&format!(
        "{terms} SK ST 1 0 0 NO 4 SK ST 1 0 1 ST 1 0 0 ST 1 0 2 NO 6 EN"
    ));
    assert_eq!(mapped(&private, &[0]), Ok([1, NONE, NONE]));
    // The image is the inverse of A's own key, which is not listed; C has no key on the sheet.
    assert_eq!(breaks(&private, &[1]), 5);
    assert_eq!(breaks(&private, &[2]), 5);
    let public = bytes(&format!("{terms} SK ST 1 0 0 NO 3 SK ST 1 0 1 NO 5 EN"));
    assert_eq!(mapped(&public, &[0]), Ok([1]));
    let long_term = bytes(&format!(
        "{terms} SK ST 1 0 9 NO 7 SK ST 1 0 10 ST 1 0 11 NO 8 EN"
    ));
    assert_eq!(mapped(&long_term, &[0]), Ok([1, 0]));
    assert_eq!(breaks(&long_term, &[1]), 5);
}

/// If a key goes to an inverse, its inverse goes to the key. 0 a, 1 b, 2 and 3 the inverses.
#[test]
fn rule_5_inverse_of_an_inverse() {
    let terms = "BS 1 TM 6 0 0 TM 6 1 0 TM 8 0 0 TM 8 1 0";
    let sheet = |atom| {
        bytes(&format!(
            "{terms} SK ST 1 0 0 NO 2 SK ST 1 0 3 NO {atom} EN"
        ))
    };
    assert_eq!(mapped(&sheet(1), &[0]), Ok([3, NONE, NONE, NONE]));
    let unrelated = bytes(&format!("{terms} SK ST 1 0 0 NO 2 SK ST 1 0 3 EN"));
    assert_eq!(breaks(&unrelated, &[0]), 5);
}

/// "(6) images of UO atoms are UO atoms, with origin mapped to origin".
#[test]
fn rule_6() {
    let terms = "BS 1 TM 2 0 0 TM 2 1 0 TM 1 0 0";
    let not_unique = bytes(&format!("{terms} SK ST 1 0 0 UO 0 SK ST 1 0 1 EN"));
    assert_eq!(breaks(&not_unique, &[0]), 6);
    let unique = bytes(&format!("{terms} SK ST 1 0 0 UO 0 SK ST 1 0 1 UO 1 EN"));
    assert_eq!(mapped(&unique, &[0]), Ok([1, NONE, NONE]));
    // The message variable may become y too; then y originates one event too early.
    let early = bytes(&format!(
        "{terms} SK ST 2 0 2 0 0 UO 0 SK ST 2 0 1 0 1 UO 1 EN"
    ));
    assert_eq!(breaks(&early, &[0]), 6);
}

/// Who passes a unique atom on is not its origin. 0 x, 1 y, 2 message variable, 3 tag: the
/// source hears something and sends x first.
#[test]
fn rule_6_origin_on_the_right_strand() {
    let terms = "BS 1 TM 2 0 0 TM 2 1 0 TM 1 0 0 TM 0 0 0";
    let sheet = bytes(&format!(
        "{terms} SK ST 2 1 2 0 0 UO 0 SK ST 2 1 3 0 1 ST 2 1 1 0 1 OR 0 1 1 0 UO 1 EN"
    ));
    assert_eq!(mapped(&sheet, &[0]), Ok([1, NONE, 3, NONE]));
    assert_eq!(breaks(&sheet, &[1]), 6);
    assert_eq!(listed::<1>(&sheet, 0, 1), [[0]]);
}

/// The first broken rule is that of the whole map: strand 0 breaks rule 3, strand 1 rule 2.
#[test]
fn the_first_rule_over_the_whole_map() {
    let sheet = bytes("BS 1 TM 0 0 0 TM 0 1 0 SK ST 1 0 0 ST 1 0 0 SK ST 1 0 1 ST 1 1 0 EN");
    assert_eq!(breaks(&sheet, &[0, 1]), 2);
    assert_eq!(breaks(&sheet, &[0, 9]), 1);
    assert_eq!(breaks(&sheet, &[0, 0]), 3);
}

/// A map that breaks a rule and all later ones is told the first: 0 x, 1 y, 2 k, 3 l, 4 and 5
/// hashes of k and l, 6 tag, 7 another tag. The source has order, an NO and a UO atom.
#[test]
fn rules_in_order() {
    let terms = "BS 1 TM 2 0 0 TM 2 1 0 TM 5 0 0 TM 5 1 0 TM 12 2 0 TM 12 3 0 TM 0 0 0 TM 0 1 0";
    let source = "SK ST 2 0 0 0 4 ST 1 1 6 OR 0 0 1 0 NO 2 UO 0";
    let sheet = |target: &str| bytes(&format!("{terms} {source} SK {target} EN"));
    let rules = [
        ("ST 1 0 1 ST 1 1 7", 2),
        ("ST 2 0 1 0 5 ST 1 1 7", 3),
        ("ST 2 0 1 0 5 ST 1 1 6", 4),
        ("ST 2 0 1 0 5 ST 1 1 6 OR 0 0 1 0", 5),
        ("ST 2 0 1 0 5 ST 1 1 6 OR 0 0 1 0 NO 3", 6),
    ];
    for (target, rule) in rules {
        assert_eq!(breaks(&sheet(target), &[0, 1]), rule);
        assert_eq!(breaks(&sheet(target), &[0, 2]), 1);
    }
    let kept = sheet("ST 2 0 1 0 5 ST 1 1 6 OR 0 0 1 0 NO 3 UO 1");
    assert_eq!(mapped(&kept, &[0, 1]), Ok([1, NONE, 3]));
    assert_eq!(listed::<2>(&kept, 0, 1), [[0, 1]]);
}

/// "Source and target may be the same skeleton": the plain map keeps everything.
#[test]
fn a_skeleton_maps_to_itself() {
    let mut images = [CANARY; 10];
    let answer = second::map(&blanchet(), 1, 1, &[0, 1], &mut images);
    assert_eq!(answer, YES);
    let n = NONE;
    assert_eq!(images, [0, 1, 2, 3, n, n, n, n, n, CANARY]);
    assert_eq!(listed::<2>(&blanchet(), 1, 1), [[0, 1]]);
    // The shape has two strands and the view one, and no target strand receives first.
    assert_eq!(listed::<2>(&blanchet(), 1, 0), [[0u8; 2]; 0]);
}

/// "Too short for all terms: 16, before the map rules are judged"; 15 comes before 16.
#[test]
fn map_refusals() {
    let sheet = blanchet();
    let mut short = [CANARY; 8];
    assert_eq!(
        second::map(&sheet, 0, 1, &[0], &mut short),
        refused(16, 0, 0)
    );
    assert_eq!(
        second::map(&sheet, 0, 1, &[], &mut short),
        refused(16, 0, 0)
    );
    for (source, target) in [(2, 0), (0, 2), (255, 255)] {
        let answer = second::map(&sheet, source, target, &[0], &mut short);
        assert_eq!(answer, refused(15, 0, 0));
    }
    assert_eq!(second::map(&[], 9, 9, &[], &mut short), refused(1, 0, 0));
    assert_eq!(short, [CANARY; 8]);
    let mut exact = [CANARY; 9];
    assert_eq!(second::map(&sheet, 0, 1, &[0], &mut exact), YES);
}

/// "the maps end to end, one byte per source strand. Bytes beyond stay. It takes 16 exactly when
/// count times strands exceeds the space."
#[test]
fn list_space() {
    let sheet = bytes(
        "BS 1 TM 2 0 0 TM 2 1 0 TM 2 2 0 SK ST 1 0 0 ST 1 0 1 SK ST 1 0 0 ST 1 0 1 ST 1 0 2 EN",
    );
    let nine = [0, 0, 0, 1, 0, 2, 1, 0, 1, 1, 1, 2, 2, 0, 2, 1, 2, 2];
    let mut space = [CANARY; 20];
    assert_eq!(second::list(&sheet, 0, 1, &mut space), maps(9));
    assert_eq!(space[..18], nine);
    assert_eq!(space[18..], [CANARY; 2]);
    let mut exact = [CANARY; 18];
    assert_eq!(second::list(&sheet, 0, 1, &mut exact), maps(9));
    assert_eq!(exact, nine);
    for length in 0..18 {
        let mut short = vec![CANARY; length];
        assert_eq!(second::list(&sheet, 0, 1, &mut short), refused(16, 0, 0));
        assert_eq!(short, vec![CANARY; length]);
    }
}

#[test]
fn list_refusals() {
    let sheet = blanchet();
    for (source, target) in [(2, 0), (0, 2), (255, 255)] {
        let answer = second::list(&sheet, source, target, &mut []);
        assert_eq!(answer, refused(15, 0, 0));
    }
    assert_eq!(second::list(&[], 9, 9, &mut []), refused(1, 0, 0));
    // One map of one strand needs one byte, no map needs none.
    assert_eq!(second::list(&sheet, 0, 1, &mut []), refused(16, 0, 0));
    assert_eq!(second::list(&sheet, 1, 0, &mut []), maps(0));
}

/// Six different texts sent into six: every one of the 6^6 maps.
#[test]
fn the_longest_list() {
    let texts: String = (0..12).map(|a| format!(" TM 2 {a} 0 ")).collect();
    let source: String = (0..6).map(|t| format!(" ST 1 0 {t} ")).collect();
    let target: String = (6..12).map(|t| format!(" ST 1 0 {t} ")).collect();
    let sheet = bytes(&format!("BS 1 {texts} SK {source} SK {target} EN"));
    let all = listed::<6>(&sheet, 0, 1);
    assert_eq!(all.len(), 46_656);
    assert_eq!(all[0], [0; 6]);
    assert_eq!(all[1], [0, 0, 0, 0, 0, 1]);
    assert_eq!(all[6], [0, 0, 0, 0, 1, 0]);
    assert_eq!(all[46_655], [5; 6]);
    assert!(all.is_sorted());
}

/// 0 x, 1 y, 2 message variable m, 3 k, 4 l, 5 x under k, 6 y under l, 7 m under k.
const KEYED: &str =
    "BS 1 TM 2 0 0 TM 2 1 0 TM 1 0 0 TM 5 0 0 TM 5 1 0 TM 11 0 3 TM 11 1 4 TM 11 2 3";

/// The sender goes to strand 0 with k to l, or to strand 1 with k to itself; the reception then
/// has to be under the same key, and after the sender.
const ONE_KEY: &str = "SK ST 2 0 7 1 2 ST 1 1 5 OR 0 0 1 0
    SK ST 2 0 6 1 1 ST 2 0 5 1 0 ST 1 1 5 ST 1 1 6 OR 0 0 2 0 OR 0 0 3 0 OR 1 0 2 0 EN";

/// m goes to anything sent and x to any text received; order leaves two of the four maps.
const ONE_ORDER: &str = "SK ST 1 0 2 ST 1 1 0 OR 0 0 1 0
    SK ST 1 0 5 ST 1 1 0 ST 1 1 1 ST 1 0 1 OR 0 0 1 0 OR 3 0 2 0 EN";

/// x is unique and k withheld: so the sender goes to strand 0, the receptions to 1 or 2.
const ONE_ORIGIN: &str = "SK ST 1 0 5 ST 1 1 5 OR 0 0 1 0 NO 3 UO 0
    SK ST 1 0 6 ST 1 1 6 ST 1 1 6 ST 1 0 5 OR 0 0 1 0 OR 0 0 2 0 NO 4 UO 1 EN";

#[test]
fn lists_by_hand() {
    let list = |drawn| listed::<2>(&bytes(&format!("{KEYED} {drawn}")), 0, 1);
    assert_eq!(list(ONE_KEY), [[0, 3], [1, 2]]);
    assert_eq!(list(ONE_ORDER), [[0, 1], [3, 2]]);
    assert_eq!(list(ONE_ORIGIN), [[0, 1], [0, 2]]);
}

/// The list is defined by the map question: exactly the maps that keep every rule, in
/// dictionary order.
#[test]
fn the_list_is_every_map_that_keeps_the_rules() {
    for drawn in [ONE_KEY, ONE_ORDER, ONE_ORIGIN] {
        let sheet = bytes(&format!("{KEYED} {drawn}"));
        for (source, target) in [(0, 1), (1, 0), (0, 0), (1, 1)] {
            let keeps = |map: &[u8]| second::map(&sheet, source, target, map, &mut [0; 8]) == YES;
            let expected = accepted(&keeps);
            let mut space = vec![CANARY; 6 * 46_656];
            let answer = second::list(&sheet, source, target, &mut space);
            assert_eq!(answer, maps(expected.len() as u64));
            assert!(space.starts_with(&expected.concat()));
        }
    }
}

/// All maps of any length up to 4 over 4 strands that are kept, in dictionary order.
fn accepted(keeps: &dyn Fn(&[u8]) -> bool) -> Vec<Vec<u8>> {
    let mut maps = vec![vec![]];
    let mut kept: Vec<Vec<u8>> = Vec::new();
    for _ in 0..4 {
        maps = maps
            .iter()
            .flat_map(|map| (0..4).map(move |strand| [&map[..], &[strand]].concat()))
            .collect();
        kept.extend(maps.iter().filter(|map| keeps(map)).cloned());
    }
    kept
}

/// Matching meets each part once: as a tree term 95 would have 2^95 leaves.
#[test]
fn parts_in_many_places_are_matched_once() {
    let pairs = |first: usize| -> String {
        let levels = first..first + 95;
        levels.map(|t| format!(" TM 10 {t} {t} ")).collect()
    };
    let sheet = bytes(&format!(
        "BS 1 TM 2 0 0 {} TM 2 1 0 {} SK ST 1 0 95 SK ST 1 0 191 EN",
        pairs(0),
        pairs(96)
    ));
    let mut images = [CANARY; 192];
    assert_eq!(second::map(&sheet, 0, 1, &[0], &mut images), YES);
    assert_eq!(images[0], 96);
    assert!(images[1..].iter().all(|&image| image == NONE));
}

/// "For two accepted sheets with the same TM records and the same skeleton 0, all answers about
/// skeleton 0 alone agree, whatever skeleton 1 says."
#[test]
fn skeleton_0_is_judged_alone() {
    let skeleton_0 = &blanchet()[..66];
    let answers = |skeleton_1: &str| {
        let sheet = [skeleton_0, &bytes(skeleton_1), b"EN"].concat();
        let mut images = [CANARY; 9];
        let mut space = [CANARY; 2];
        let words = [
            second::map(&sheet, 0, 0, &[0], &mut images),
            second::list(&sheet, 0, 0, &mut space),
            second::within(&sheet, 0, 7, &[6]),
            second::reach(&sheet, 0, 0, 1),
            second::realized(&sheet, 0),
            second::derivable(&sheet, 0, 0, 1, 7),
        ];
        (images, space, words)
    };
    let n = NONE;
    let expected = (
        [0, 1, 2, 3, n, n, n, n, n],
        [0, CANARY],
        [YES, maps(1), YES, reach(4), open_at(0, 1), YES],
    );
    for skeleton_1 in ["", "SK ST 1 1 8", "SK ST 1 0 1 UO 1", "SK ST 1 1 7 NO 5"] {
        assert_eq!(answers(skeleton_1), expected);
    }
}
