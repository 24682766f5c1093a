//! Refusals, and the one word that every answer is put into.

pub const NO: u8 = 2;
pub const YES: u8 = 1;

/// What stands before a sheet or question can be answered.
#[derive(Clone, Copy, Debug, PartialEq, Eq)]
pub struct Refusal {
    pub number: u8,
    pub skeleton: u8,
    pub place: usize,
}

impl Refusal {
    pub fn at(number: u8, place: usize) -> Refusal {
        Refusal {
            number,
            skeleton: 0,
            place,
        }
    }

    pub const NOT_THERE: Refusal = Refusal {
        number: 15,
        skeleton: 0,
        place: 0,
    };

    pub const NO_ROOM: Refusal = Refusal {
        number: 16,
        skeleton: 0,
        place: 0,
    };
}

pub fn word(tag: u8, x: u8, y: u8, z: usize) -> u64 {
    u64::from(tag) | u64::from(x) << 8 | u64::from(y) << 16 | (z as u64) << 32
}

pub fn verdict(yes: bool) -> u64 {
    word(if yes { YES } else { NO }, 0, 0, 0)
}

pub fn answered(answer: Result<u64, Refusal>) -> u64 {
    answer.unwrap_or_else(|refusal| word(0, refusal.number, refusal.skeleton, refusal.place))
}
