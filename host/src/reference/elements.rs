//! The known extension elements (document 01, "LM, SAM and SRM").

use super::{planted, Engine};
use crate::codec::Element;
use crate::mutants::Fault;

/// The homes of extension elements.
const N_HEADER: u64 = 0;
const T_HEADER: u64 = 1;
const SERVICE_INFO: u64 = 2;

/// The known extension elements: ID and home.
const KNOWN: [(u64, u64); 16] = [
    (4, N_HEADER),
    (15, N_HEADER),
    (16, N_HEADER),
    (80, N_HEADER),
    (81, N_HEADER),
    (82, N_HEADER),
    (83, T_HEADER),
    (8, SERVICE_INFO),
    (9, SERVICE_INFO),
    (10, SERVICE_INFO),
    (11, SERVICE_INFO),
    (19, SERVICE_INFO),
    (20, SERVICE_INFO),
    (22, SERVICE_INFO),
    (24, SERVICE_INFO),
    (85, SERVICE_INFO),
];

impl<const F: u8> Engine<F> {
    pub(super) fn find_element(id: u64, home: u64) -> Element {
        if home > SERVICE_INFO && !planted::<F>(Fault::HomeNotTested) {
            return Element::Unknown;
        }
        match KNOWN.iter().find(|known| known.0 == id) {
            Some(known) if known.1 == home => Element::Here,
            Some(_) => Element::Elsewhere,
            None => Element::Unknown,
        }
    }
}
