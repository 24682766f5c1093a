//! A sheet taken apart into its records, as far as they can be told apart.

use crate::builder::{Event, Sheet, Skeleton};

pub type Record = Vec<u8>;

/// The records one after the other; what can't be told apart is the last of them.
pub fn records(sheet: &[u8]) -> Vec<Record> {
    let mut found = Vec::new();
    let mut rest = sheet;
    while let Some(length) = record_length(rest) {
        found.push(rest[..length].to_vec());
        rest = &rest[length..];
    }
    if !rest.is_empty() {
        found.push(rest.to_vec());
    }
    found
}

pub fn joined(records: &[Record]) -> Vec<u8> {
    records.concat()
}

fn record_length(rest: &[u8]) -> Option<usize> {
    let length = match rest.get(..2)? {
        b"BS" | b"NO" | b"UO" => 3,
        b"TM" => 5,
        b"SK" | b"EN" => 2,
        b"ST" => 3 + 2 * *rest.get(2)? as usize,
        b"OR" => 6,
        _ => return None,
    };
    (length <= rest.len()).then_some(length)
}

pub fn has_mark(record: &[u8], mark: &[u8; 2]) -> bool {
    record.starts_with(mark)
}

/// The places of the whole records with this mark.
pub fn places(records: &[Record], mark: &[u8; 2]) -> Vec<usize> {
    let whole = |record: &[u8]| record_length(record) == Some(record.len());
    let wanted = |at: &usize| has_mark(&records[*at], mark) && whole(&records[*at]);
    (0..records.len()).filter(wanted).collect()
}

impl Sheet {
    /// What stands on a sheet, good or bad, as far as its records can be told apart.
    pub fn read(bytes: &[u8]) -> Self {
        let mut sheet = Sheet::new();
        for record in records(bytes) {
            sheet.take(&record);
        }
        sheet.terms.truncate(u8::MAX as usize);
        sheet
    }

    fn take(&mut self, record: &[u8]) {
        match record {
            [b'T', b'M', kind, a, b] => self.terms.push([*kind, *a, *b]),
            [b'S', b'K'] => self.skeletons.push(Skeleton::default()),
            _ => {
                if let Some(skeleton) = self.skeletons.last_mut() {
                    skeleton.take(record);
                }
            }
        }
    }
}

impl Skeleton {
    fn take(&mut self, record: &[u8]) {
        match record {
            [b'S', b'T', _, events @ ..] => {
                let event = |pair: &[u8]| Event {
                    direction: pair[0],
                    term: pair[1],
                };
                self.strands
                    .push(events.chunks_exact(2).map(event).collect());
            }
            [b'O', b'R', a, i, b, j] => self.orders.push(((*a, *i), (*b, *j))),
            [b'N', b'O', atom] => self.non_originating.push(*atom),
            [b'U', b'O', atom] => self.unique.push(*atom),
            _ => {}
        }
    }
}
