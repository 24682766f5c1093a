//! Planted slips: each makes the program wrong in one small way, so that a set of sheets can be
//! judged by whether it shows the difference.

/// Says which slip, if any, is planted.
pub trait Slip: Copy {
    fn is(self, number: u8) -> bool;
}

/// No slip at all; every question about it is answered when compiling.
#[derive(Clone, Copy)]
pub struct Straight;

impl Slip for Straight {
    #[inline(always)]
    fn is(self, _number: u8) -> bool {
        false
    }
}

/// The slip with this number; 0 is none.
#[derive(Clone, Copy)]
pub struct Planted(pub u8);

impl Slip for Planted {
    #[inline(always)]
    fn is(self, number: u8) -> bool {
        self.0 == number
    }
}

macro_rules! slips {
    ($($number:literal $name:ident $what:literal)*) => {
        $(pub const $name: u8 = $number;)*

        /// Every slip: its number and what it gets wrong.
        pub const SLIPS: &[(u8, &str)] = &[$(($number, $what)),*];
    };
}

slips! {
    1 KEY_CARRIED "an encryption's key is treated as carried"
    2 SAME_KEY_DECRYPTS "a body under a public key is opened with that same key"
    3 KEY_ONLY_HELD "a key is asked for only among the messages held"
    4 ONE_ROUND "the reached set is sent back before it has stopped growing"
    5 IMAGES_APART "two variables never share an image"
    6 TERM_200_REFUSED "the 200th term is one too many"
    7 TERM_201_TAKEN "a 201st term is taken"
    8 HEIGHT_16_REFUSED "a height of 16 is too much"
    9 HEIGHT_17_TAKEN "a height of 17 is taken"
    10 HEIGHT_0_TAKEN "a height of 0 is taken"
    11 STRAND_6_REFUSED "the sixth strand is one too many"
    12 STRAND_7_TAKEN "a seventh strand is taken"
    13 PAIR_64_REFUSED "the 64th OR is one too many"
    14 PAIR_65_TAKEN "a 65th OR is taken"
    15 NON_32_REFUSED "the 32nd NO is one too many"
    16 NON_33_TAKEN "a 33rd NO is taken"
    17 UNIQUE_32_REFUSED "the 32nd UO is one too many"
    18 UNIQUE_33_TAKEN "a 33rd UO is taken"
    19 THIRD_SKELETON_2 "a third SK is refused with 2"
    20 EXCHANGE_5_6 "refusals 5 and 6 exchanged"
    21 EXCHANGE_12_13 "refusals 12 and 13 exchanged"
    22 EXCHANGE_10_14 "refusals 10 and 14 exchanged"
    23 LENGTH_BEFORE_COUNT "completeness of a record is judged before the count"
    24 NO_RULE_2 "map rule 2 left out"
    25 NO_RULE_3 "map rule 3 left out"
    26 NO_RULE_4 "map rule 4 left out"
    27 NO_RULE_5 "map rule 5 left out"
    28 NO_RULE_6 "map rule 6 left out"
    29 NO_ORIGIN_IN_6 "map rule 6 without origin mapped to origin"
    30 UNIQUE_NOT_WITHHELD "UO atoms are not withheld"
    31 NON_NOT_WITHHELD "NO atoms are not withheld"
    32 INVERSE_WITHHELD "the inverse of a withheld key is withheld too"
    33 BOTH_SKELETONS_14 "14 looks at the events of both skeletons"
    34 FIRST_RECEPTION_13 "13 is judged only for the first reception that carries the atom"
    35 NO_SUCCESSION "strand succession left out of precedence"
    36 PAIRS_REVERSED "OR pairs run backwards"
    37 LAST_STRAND_SLOWEST "in the list the last strand varies slowest"
    38 IMAGE_0 "the image table has 0 instead of 255"
    39 LIST_EXACT_REFUSED "list space that is exactly enough is refused"
    40 IMAGES_EXACT_REFUSED "an image table exactly as long as the terms is refused"
    41 EIGHT_AFTER_9 "8 is judged after 9"
    42 HASH_OPENED "a hash held gives what is hashed"
    43 KEY_CARRIED_IN_11 "11 treats an encryption's key as carried"
    44 INVERSE_KEPT "the inverse taken twice does not give the key back after a substitution"
    45 PUBLIC_WITHOUT_INVERSE "9 looks only at keys of kind 6"
    46 MESSAGE_NOT_FREE "message variables have to be heard"
    47 PAIR_AS_PRINTED "a pair is split only if neither half is held"
    48 COMPOUND_KEY_HELD "a compound key has to be held, it is never built"
    49 LONG_TERM_NO_IMAGE "a symmetric key never goes to a long-term key"
    50 MESSAGE_TO_SIMPLE "a message variable goes only to a term without parts"
    51 OWN_MEMBERSHIP "carried only within: the membership of t itself protects"
    52 TOP_UNPROTECTED "carried only within: the membership of the whole term does not protect"
    53 LATE_SEND_ORIGINATES "an atom originates also where it is first received and later sent"
    54 POSITION_BEFORE_STRAND "the first open reception is sought by position, then strand"
    55 LONE_BYTE_2 "a single byte left is refused with 2"
    56 END_AT_LAST_RECORD "a missing EN is placed where the last record begins"
    57 ALL_SENDS_EARLIER "every send of the skeleton counts as earlier"
    58 ROOM_BEFORE_15 "the image table's length is judged before the skeletons asked for"
    59 RULES_BEFORE_ROOM "the map rules are judged before the image table's length"
    60 LONG_MAP_TAKEN "a strand map with bytes to spare is taken"
    61 NO_WRITES_IMAGES "a map that breaks a rule after 3 still writes its images"
    62 REFUSED_LIST_WRITTEN "a list refused for room leaves the maps that had room"
    63 HIGHEST_9 "9 names the highest such term"
    64 FALLING_ATOMS "NO and UO atoms are judged by falling number"
    65 SKELETON_0_NAMED "every refusal names skeleton 0"
    66 TAG_NOT_FREE "tags have to be heard"
    67 MESSAGE_AS_KEY "a message variable is taken as a key"
    68 ANY_DIRECTION "an OR pair may run between any two nodes"
    69 CYCLE_TAKEN "a cycle in precedence is not looked for"
    70 HASH_CARRIES "a hash carries what is hashed"
}
