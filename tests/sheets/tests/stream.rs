//! The sheets are what they are said to be.

use sheets::judge::{ask, Answer, Straight};
use sheets::{generate, pair_questions, questions, Question};

fn word(sheet: &[u8]) -> (u8, u8, u32) {
    let answer = ask(&Straight, sheet, &Question::Sheet);
    (answer.tag(), answer.x(), answer.z())
}

fn maps(sheet: &[u8], lent: usize) -> Answer {
    let question = Question::List {
        source: 0,
        target: 1,
        lent,
    };
    ask(&Straight, sheet, &question)
}

/// Document 01: "The longest good sheet has 2,581 bytes"; 200 terms, two skeletons.
#[test]
fn the_longest_sheet_is_good() {
    let sheet = sheets::longest();
    assert_eq!(sheet.len(), 2581);
    assert_eq!(word(&sheet), (1, 2, 200));
}

/// 32 ways for strands 0 and 1 and four for each of the others, as told beside the sheet.
#[test]
fn as_many_maps_as_fit() {
    assert_eq!(32 * 4 * 4 * 4 * 4 * 6, 49_152);
    let answer = maps(&sheets::just_fitting(), 49_152);
    assert_eq!((answer.tag(), answer.z()), (1, 8192));
}

/// Every strand fits every strand, so the maps are those of the orders: counted here from the
/// orders alone, over all strand maps there are.
#[test]
fn one_map_more_than_fits() {
    let sheet = sheets::one_too_many();
    let (source, target) = (orders(&sheet, 0), orders(&sheet, 1));
    let kept = |map: &[u8; 6]| {
        source.iter().all(|&(from, to)| {
            let image = (map[from as usize], map[to as usize]);
            image.0 == image.1 || target.contains(&image)
        })
    };
    let all = (0..6u32.pow(6)).map(|number| {
        let mut rest = number;
        [(); 6].map(|()| {
            let digit = rest % 6;
            rest /= 6;
            digit as u8
        })
    });
    assert_eq!(all.filter(kept).count(), 8193);
    let roomy = maps(&sheet, 49_158);
    assert_eq!((roomy.tag(), roomy.z()), (1, 8193));
    let short = maps(&sheet, 49_152);
    assert_eq!((short.tag(), short.x()), (0, 16));
}

/// The strands of each OR record of a skeleton; in that sheet all run from event 0 to event 1.
fn orders(sheet: &[u8], skeleton: usize) -> Vec<(u8, u8)> {
    let drawn = &sheets::builder::Sheet::read(sheet).skeletons[skeleton];
    let strands = drawn.orders.iter().map(|(from, to)| {
        assert_eq!((from.1, to.1), (0, 1));
        (from.0, to.0)
    });
    strands.collect()
}

/// From 25 to 190 terms; every key is found in the end. With eleven links or more and two at
/// most opened in a pass there are more than three passes.
#[test]
fn chains_have_the_length_asked_for() {
    for terms in [25, 26, 60, 120, 189, 190] {
        let sheet = sheets::chain(terms);
        assert_eq!(word(&sheet), (1, 1, terms as u32));
        assert_eq!(second::realized(&sheet, 0), 1);
        let drawn = &sheets::builder::Sheet::read(&sheet).skeletons[0];
        let (strand, position) = drawn.receptions()[0];
        assert!(second::passes(&sheet, 0, strand, position) > 3);
    }
}

/// Every term but the leaf is a pair of the one before; the leaf is withheld in skeleton 1 only,
/// but the whole is sent, so both are realized. The only map is the plain one.
#[test]
fn shared_messages_have_the_depth_asked_for() {
    for terms in [3, 25, 100, 190, 200] {
        let sheet = sheets::shared(terms);
        assert_eq!(word(&sheet), (1, 2, terms as u32));
        assert_eq!(second::realized(&sheet, 0), 1);
        assert_eq!(second::realized(&sheet, 1), 1);
        let answer = maps(&sheet, 2);
        assert_eq!(
            (answer.tag(), answer.z(), answer.lent()),
            (1, 1, &[0, 1][..])
        );
    }
}

#[test]
fn six_strands_against_six() {
    for number in 0..50 {
        let sheet = sheets::six_by_six(number);
        assert_eq!(word(&sheet).0, 1, "sheet {number}");
        let drawn = sheets::builder::Sheet::read(&sheet).skeletons;
        let strands: Vec<usize> = drawn.iter().map(|one| one.strands.len()).collect();
        assert_eq!(strands, [6, 6], "sheet {number}");
    }
}

/// A sheet and its questions follow from the two numbers alone.
#[test]
fn the_stream_can_be_made_again() {
    for index in (0..400).chain(49_900..50_000) {
        let sheet = generate(9, index);
        assert_eq!(sheet, generate(9, index));
        assert_eq!(questions(9, index, &sheet), questions(9, index, &sheet));
        let pairs = || pair_questions(9, index, &sheet);
        assert_eq!(pairs(), pairs());
    }
}
