//! Every planted slip shows on some small sheet, and planting none changes nothing.

mod common;

use common::*;
use second::{slipped, SLIPS};

/// A question about a sheet.
enum Ask {
    Sheet,
    Within(u8, u8, &'static [u8]),
    Derivable(u8, u8),
    Realized,
    Map(u8, u8, &'static [u8], usize),
    List(usize),
}

/// The word and the lent memory afterwards.
fn answer(slip: u8, sheet: &[u8], ask: &Ask) -> (u64, Vec<u8>) {
    let mut lent = Vec::new();
    let word = match *ask {
        Ask::Sheet => slipped::sheet(slip, sheet),
        Ask::Within(t, inside, set) => slipped::within(slip, sheet, t, inside, set),
        Ask::Derivable(position, term) => slipped::derivable(slip, sheet, 0, 0, position, term),
        Ask::Realized => slipped::realized(slip, sheet, 0),
        Ask::Map(source, target, map, length) => {
            lent = vec![CANARY; length];
            slipped::map(slip, sheet, source, target, map, &mut lent)
        }
        Ask::List(length) => {
            lent = vec![CANARY; length];
            slipped::list(slip, sheet, 0, 1, &mut lent)
        }
    };
    (word, lent)
}

fn shows(cases: &[(u8, &str, Ask)]) -> Vec<u8> {
    for (slip, text, ask) in cases {
        let sheet = bytes(text);
        assert_ne!(
            answer(*slip, &sheet, ask),
            answer(0, &sheet, ask),
            "slip {slip}"
        );
    }
    cases.iter().map(|(slip, ..)| *slip).collect()
}

/// 0 x, 1 k, 2 x under k, 3 hash of x, 4 pair of x and x.
const BODY: &str = "BS 1 TM 2 0 0 TM 5 0 0 TM 11 0 1 TM 12 0 0 TM 10 0 0";

/// 0 x, 1 a, 2 its inverse, 3 x under a, 4 x under the inverse.
const SEALED: &str = "BS 1 TM 2 0 0 TM 6 0 0 TM 8 1 0 TM 11 0 1 TM 11 0 2";

fn carrying() -> Vec<u8> {
    let key_used = format!("{BODY} SK ST 1 1 2 NO 1 EN");
    shows(&[
        (1, &key_used, Ask::Sheet),
        (1, &key_used, Ask::Within(1, 2, &[])),
        (43, &key_used, Ask::Sheet),
        (51, &key_used, Ask::Within(0, 4, &[0])),
        (52, &key_used, Ask::Within(0, 2, &[2])),
        (70, &key_used, Ask::Within(0, 3, &[])),
        (70, &format!("{BODY} SK ST 1 1 3 NO 0 EN"), Ask::Sheet),
    ])
}

fn deriving() -> Vec<u8> {
    let chain = "BS 1 TM 5 0 0 TM 5 1 0 TM 2 0 0 TM 11 1 0 TM 11 2 1
        SK ST 3 0 3 0 4 1 2 UO 1 UO 2 EN";
    let key_built = "BS 1 TM 2 0 0 TM 5 0 0 TM 10 1 1 TM 11 0 2 SK ST 2 0 3 1 0 UO 0 EN";
    let half_held = "BS 1 TM 2 0 0 TM 2 1 0 TM 10 0 1 SK ST 3 0 0 0 2 1 1 UO 0 UO 1 EN";
    let two_open = "BS 1 TM 2 0 0 TM 12 0 0 TM 0 0 0 SK ST 2 1 2 1 1 ST 1 1 1 NO 0 EN";
    let beside = format!("{BODY} SK ST 1 1 3 ST 1 0 3 NO 0 EN");
    let sealed = format!("{SEALED} SK ST 2 0 3 1 0 NO 2 UO 0 EN");
    let signed = format!("{SEALED} SK ST 2 0 4 1 0 NO 2 UO 0 EN");
    let key_free = format!("{BODY} SK ST 2 0 2 1 0 UO 0 EN");
    let key_withheld = format!("{BODY} SK ST 2 0 2 1 0 NO 1 UO 0 EN");
    let hashed = format!("{BODY} SK ST 2 0 3 1 3 NO 0 EN");
    shows(&[
        (2, &sealed, Ask::Derivable(1, 0)),
        (3, &key_free, Ask::Derivable(1, 0)),
        (4, chain, Ask::Realized),
        (30, &key_withheld, Ask::Realized),
        (31, &format!("{BODY} SK ST 1 1 3 NO 0 EN"), Ask::Realized),
        (32, &signed, Ask::Realized),
        (42, &hashed, Ask::Derivable(1, 0)),
        (46, "BS 1 TM 1 0 0 SK ST 1 1 0 EN", Ask::Realized),
        (47, half_held, Ask::Realized),
        (48, key_built, Ask::Realized),
        (54, two_open, Ask::Realized),
        (57, &beside, Ask::Realized),
        (66, "BS 1 TM 0 0 0 SK ST 1 1 0 EN", Ask::Realized),
    ])
}

fn limits() -> Vec<u8> {
    let terms = |count| format!("BS 1 {} SK ST 1 1 0 EN", tags(count));
    let height = |height: usize| {
        let events = times(height, "1 0");
        format!("BS 1 TM 0 0 0 SK ST {height} {events} EN")
    };
    let strands = |count| format!("BS 1 TM 0 0 0 SK {} EN", times(count, "ST 1 1 0"));
    let pairs = |count| {
        let pairs = times(count, "OR 0 0 0 1");
        format!("BS 1 TM 0 0 0 SK ST 2 0 0 1 0 {pairs} EN")
    };
    let nons = |count| {
        let nons = times(count, "NO 0");
        format!("BS 1 TM 2 0 0 TM 12 0 0 SK ST 1 1 1 {nons} EN")
    };
    let uniques = |count| format!("BS 1 TM 2 0 0 SK ST 1 0 0 {} EN", times(count, "UO 0"));
    let three = "BS 1 TM 0 0 0 SK ST 1 1 0 SK ST 1 1 0 SK ST 1 1 0 EN";
    shows(&[
        (6, &terms(200), Ask::Sheet),
        (7, &terms(201), Ask::Sheet),
        (8, &height(16), Ask::Sheet),
        (9, &height(17), Ask::Sheet),
        (10, &height(0), Ask::Sheet),
        (11, &strands(6), Ask::Sheet),
        (12, &strands(7), Ask::Sheet),
        (13, &pairs(64), Ask::Sheet),
        (14, &pairs(65), Ask::Sheet),
        (15, &nons(32), Ask::Sheet),
        (16, &nons(33), Ask::Sheet),
        (17, &uniques(32), Ask::Sheet),
        (18, &uniques(33), Ask::Sheet),
        (19, three, Ask::Sheet),
        (23, &format!("BS 1 {} TM", tags(200)), Ask::Sheet),
    ])
}

fn refusals_while_reading() -> Vec<u8> {
    shows(&[
        (20, "BS 1 TM 13 0 0", Ask::Sheet),
        (20, "BS 1 TM 2 0 0 TM 2 0 0", Ask::Sheet),
        (55, "B", Ask::Sheet),
        (56, "BS 1", Ask::Sheet),
        (67, "BS 1 TM 1 0 0 TM 11 0 0 SK ST 1 1 0 EN", Ask::Sheet),
        (
            68,
            "BS 1 TM 0 0 0 SK ST 2 1 0 1 0 OR 0 0 0 1 EN",
            Ask::Sheet,
        ),
    ])
}

fn refusals_after_the_end() -> Vec<u8> {
    let texts = "BS 1 TM 2 0 0 TM 2 1 0";
    let cycle = "BS 1 TM 0 0 0 SK ST 2 1 0 0 0 OR 0 1 0 0 EN";
    let alone = format!("{texts} SK ST 1 1 0 UO 0 EN");
    let elsewhere = format!("{texts} SK ST 1 1 0 SK ST 1 1 1 NO 0 EN");
    let second_late = format!("{texts} SK ST 1 0 0 ST 1 1 0 ST 1 1 0 OR 0 0 1 0 UO 0 EN");
    let relayed = format!("{texts} SK ST 1 0 0 ST 2 1 0 0 0 OR 0 0 1 0 UO 0 EN");
    let succession = format!("{texts} SK ST 2 0 0 1 0 UO 0 EN");
    let two_carried = format!("{texts} SK ST 2 1 0 1 1 NO 0 NO 1 EN");
    let in_the_second = format!("{texts} SK ST 1 1 0 SK ST 1 1 0 UO 0 EN");
    let public_key = "BS 1 TM 4 0 0 TM 7 0 0 SK ST 1 1 0 EN";
    let two_keys = "BS 1 TM 6 0 0 TM 6 1 0 SK ST 1 1 0 EN";
    shows(&[
        (21, &alone, Ask::Sheet),
        (21, &second_late, Ask::Sheet),
        (22, cycle, Ask::Sheet),
        (22, &elsewhere, Ask::Sheet),
        (33, &elsewhere, Ask::Sheet),
        (34, &second_late, Ask::Sheet),
        (35, &succession, Ask::Sheet),
        (36, &relayed, Ask::Sheet),
        (41, "BS 1 TM 6 0 0 SK ST 1 1 0 EN 0", Ask::Sheet),
        (45, public_key, Ask::Sheet),
        (53, &relayed, Ask::Sheet),
        (63, two_keys, Ask::Sheet),
        (64, &two_carried, Ask::Sheet),
        (65, &in_the_second, Ask::Sheet),
        (69, cycle, Ask::Sheet),
    ])
}

/// P10: two texts sent into two.
const P10: &str = "BS 1 TM 2 0 0 TM 2 1 0 TM 2 2 0 TM 2 3 0
    SK ST 1 0 0 ST 1 0 1 SK ST 1 0 2 ST 1 0 3 EN";

/// Ordered sends and receptions into unordered ones.
const UNORDERED: &str = "BS 1 TM 0 0 0 SK ST 2 0 0 1 0 ST 2 0 0 1 0 OR 0 0 1 1
    SK ST 2 0 0 1 0 ST 2 0 0 1 0 EN";

fn rules() -> Vec<u8> {
    let texts = "BS 1 TM 2 0 0 TM 2 1 0 TM 1 0 0";
    let received = format!("{texts} SK ST 1 0 0 SK ST 1 1 1 EN");
    let tags = "BS 1 TM 0 0 0 TM 0 1 0 SK ST 1 0 0 SK ST 1 0 1 EN";
    let hashes = "BS 1 TM 5 0 0 TM 5 1 0 TM 12 0 0 TM 12 1 0 SK ST 1 0 2 NO 0 SK ST 1 0 3 EN";
    let not_unique = format!("{texts} SK ST 1 0 0 UO 0 SK ST 1 0 1 EN");
    let early = format!("{texts} SK ST 2 0 2 0 0 UO 0 SK ST 2 0 1 0 1 UO 1 EN");
    let keys = "BS 1 TM 6 0 0 TM 6 1 0 TM 8 0 0 TM 8 1 0 SK ST 1 0 2 SK ST 1 0 1 EN";
    let long_term = "BS 1 TM 5 0 0 TM 4 0 0 TM 9 1 1 SK ST 1 0 0 SK ST 1 0 2 EN";
    let compound = "BS 1 TM 1 0 0 TM 2 0 0 TM 10 1 1 SK ST 1 0 0 SK ST 1 0 2 EN";
    shows(&[
        (5, P10, Ask::List(8)),
        (24, &received, Ask::List(8)),
        (25, tags, Ask::List(8)),
        (26, UNORDERED, Ask::List(8)),
        (27, hashes, Ask::List(8)),
        (28, &not_unique, Ask::List(8)),
        (29, &early, Ask::List(8)),
        (44, keys, Ask::List(8)),
        (49, long_term, Ask::List(8)),
        (50, compound, Ask::List(8)),
    ])
}

fn lent_memory() -> Vec<u8> {
    shows(&[
        (37, P10, Ask::List(8)),
        (38, P10, Ask::Map(0, 1, &[0, 0], 4)),
        (39, P10, Ask::List(8)),
        (40, P10, Ask::Map(0, 1, &[0, 0], 4)),
        (58, P10, Ask::Map(9, 9, &[0, 0], 3)),
        (59, P10, Ask::Map(0, 1, &[9, 9], 3)),
        (60, P10, Ask::Map(0, 1, &[0, 0, 0], 4)),
        (61, UNORDERED, Ask::Map(0, 1, &[0, 1], 1)),
        (62, P10, Ask::List(7)),
    ])
}

#[test]
fn every_slip_shows() {
    let mut shown = [
        carrying(),
        deriving(),
        limits(),
        refusals_while_reading(),
        refusals_after_the_end(),
        rules(),
        lent_memory(),
    ]
    .concat();
    shown.sort_unstable();
    shown.dedup();
    let planted: Vec<u8> = SLIPS.iter().map(|&(number, _)| number).collect();
    assert_eq!(shown, planted);
}

/// The first five are those of the paper, and the numbers leave no gap.
#[test]
fn slips_are_numbered() {
    let numbers = SLIPS.iter().map(|&(number, _)| usize::from(number));
    assert!(numbers.eq(1..=SLIPS.len()));
    assert!(SLIPS.len() >= 25);
}

#[test]
fn no_slip_changes_nothing() {
    let sheet = blanchet();
    for cut in 0..=sheet.len() {
        assert_eq!(
            slipped::sheet(0, &sheet[..cut]),
            second::sheet(&sheet[..cut])
        );
        assert_eq!(
            slipped::bench(0, &sheet[..cut]),
            second::bench(&sheet[..cut])
        );
    }
    for term in 0..9 {
        let plain = second::derivable(&sheet, 0, 0, 1, term);
        assert_eq!(slipped::derivable(0, &sheet, 0, 0, 1, term), plain);
    }
    assert_eq!(slipped::reach(0, &sheet, 1, 0, 1), reach(5));
    let mut images = [CANARY; 9];
    assert_eq!(slipped::map(0, &sheet, 0, 1, &[0], &mut images), YES);
    assert_eq!(images, [0, 1, 2, 3, 255, 255, 255, 255, 255]);
}
