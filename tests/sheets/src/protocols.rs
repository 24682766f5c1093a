//! Real protocols: those of the sheets in `data/` that come from the papers and not from document 01's own cases.

use std::sync::OnceLock;

use crate::stored;

macro_rules! sheets {
    ($($name:literal)*) => {
        [$(($name, include_str!(concat!("../../../data/", $name, ".sheet")))),*]
    };
}

/// Each with its name in `data/`.
const TABLE: [(&str, &str); 35] = sheets! {
    "handshake"
    "blanchet-responder"
    "blanchet-listener"
    "blanchet-leak"
    "blanchet-sealed"
    "blanchet-private"
    "dolev-yao-scenario"
    "dolev-yao-shape"
    "exercise"
    "needham-schroeder-initiator"
    "needham-schroeder-step"
    "needham-schroeder-responder"
    "lowe-attack"
    "needham-schroeder-listener"
    "needham-schroeder-secrecy"
    "lowe-responder"
    "lowe-attack-on-mended"
    "kerberos-view"
    "kerberos-checked"
    "kerberos-attack"
    "kerberos-mended"
    "kerberos-attack-on-mended"
    "yahalom-channels"
    "yahalom"
    "yahalom-type-flaw"
    "door-weakness"
    "door-trust"
    "otway-rees"
    "otway-rees-type-flaw"
    "woo-lam-type-flaw"
    "woo-lam-parallel"
    "denning-sacco-public"
    "denning-sacco-named"
    "denning-sacco-symmetric"
    "denning-sacco-type-flaw"
};

pub struct Protocol {
    pub name: &'static str,
    pub sheet: Vec<u8>,
}

/// Every protocol there is.
pub fn all() -> &'static [Protocol] {
    static ALL: OnceLock<Vec<Protocol>> = OnceLock::new();
    let read = |&(name, text): &(&'static str, &str)| Protocol {
        name,
        sheet: stored::bytes(text).expect("pairs of hexadecimal digits"),
    };
    ALL.get_or_init(|| TABLE.iter().map(read).collect())
}

pub fn named(name: &str) -> Vec<u8> {
    let mut all = all().iter();
    let found = all.find(|protocol| protocol.name == name);
    found.expect("a protocol's name").sheet.clone()
}
