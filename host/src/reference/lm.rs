//! An LM by name, and its user data (document 01, "LM, SAM and SRM"; document 02, ticket 2).

use std::sync::OnceLock;

use super::bits::fetch;
use super::read::{Nowhere, Reader};
use super::write::ValueList;
use super::{planted, Engine};
use crate::assemble::{Assembler, Offset};
use crate::codec::Refusal;
use crate::mutants::Fault;

/// The table of an LM, and where its parts stand.
pub struct LmTable {
    pub octets: Vec<u8>,
    pub root: usize,
    pub n_header: usize,
    pub t_header: usize,
    pub user_data_most: u16,
}

/// The version that an LM by name has, and its place in a message and in a list.
const LM_VERSION: u64 = 3;
const LM_VERSION_PLACE: usize = 5;
const LM_VERSION_INDEX: usize = 2;
/// The highest subtype that an LM by name has.
const LM_SUBTYPE_MOST: u64 = 2;

/// The built-in table of an LM.
pub fn lm_table() -> &'static LmTable {
    static LM: OnceLock<LmTable> = OnceLock::new();
    LM.get_or_init(|| assemble_lm(Assembler::open_octets))
}

/// The table, with element contents of this row.
fn assemble_lm(contents: fn(&mut Assembler, u16) -> Offset) -> LmTable {
    let always = |row: Offset| (row, false);
    let optional = |row: Offset| (row, true);
    let mut table = Assembler::new();

    let octet = table.number(0, 255);
    let two_octets = table.number(0, 65_535);
    let contents = contents(&mut table, 16_383);
    let element = table.record(&[always(octet), always(contents)]);
    let extensions = table.counted_run(255, element);

    let version = table.number(0, 7);
    let null_networking = table.record(&[always(version), optional(extensions)]);
    let message_id = table.number(0, (1 << 22) - 1);
    let hop_count = table.number(0, 3);
    let n_hop_forwarding = table.record(&[
        always(version),
        always(message_id),
        always(hop_count),
        optional(extensions),
    ]);

    let mut subtypes = [None; 16];
    subtypes[0] = Some(null_networking);
    subtypes[2] = Some(n_hop_forwarding);
    let original_n_header = table.choice(&subtypes);
    let link_id = table.fixed_run(8, octet);
    let internal_forwarding = table.record(&[
        always(version),
        always(octet),      // direction
        always(two_octets), // ITS-SCU-ID
        always(link_id),
        always(octet), // counter
        optional(extensions),
        always(original_n_header),
    ]);
    subtypes[1] = Some(internal_forwarding);
    let n_header = table.choice(&subtypes);

    let service = table.variable();
    let by_service = table.record(&[always(service), optional(extensions)]);
    let by_ports = table.record(&[always(two_octets), always(two_octets), optional(extensions)]);
    let mut selectors = [None; 128];
    selectors[0] = Some(by_service);
    selectors[1] = Some(by_ports);
    let t_header = table.choice(&selectors);

    let user_data_most = 16_383;
    let user_data = table.octets(user_data_most);
    let root = table.record(&[always(n_header), always(t_header), always(user_data)]);
    LmTable {
        octets: table.finish(),
        root: usize::from(root),
        n_header: usize::from(n_header),
        t_header: usize::from(t_header),
        user_data_most,
    }
}

impl<const F: u8> Engine<F> {
    /// The table that an LM by name is read and written under.
    #[inline]
    pub(super) fn lm() -> &'static LmTable {
        static WITH_OCTETS: OnceLock<LmTable> = OnceLock::new();
        if planted::<F>(Fault::EmptyContents) {
            return WITH_OCTETS.get_or_init(|| assemble_lm(Assembler::octets));
        }
        lm_table()
    }

    /// The tests of an LM before its items. Its first octet holds the subtype in the upper four
    /// bits and the version in the lower three.
    pub(super) fn lm_tests(message: &[u8]) -> Result<(), Refusal> {
        Self::message_tests(message)?;
        let subtype = fetch(message, 0, 4);
        let wrong_subtype = Refusal::new(Refusal::WRONG_SUBTYPE, 0);
        if planted::<F>(Fault::SubtypeFirst) && subtype > LM_SUBTYPE_MOST {
            return Err(wrong_subtype);
        }
        if fetch(message, LM_VERSION_PLACE, 3) != LM_VERSION {
            return Err(Refusal::new(Refusal::WRONG_VERSION, LM_VERSION_PLACE));
        }
        if subtype > LM_SUBTYPE_MOST {
            return Err(wrong_subtype);
        }
        Ok(())
    }

    /// The tests of an LM's list before its values.
    pub(super) fn lm_list_tests<L: ValueList + ?Sized>(values: &L) -> Result<(), Refusal> {
        let (Some(subtype), Some(version)) = (values.get(0), values.get(LM_VERSION_INDEX)) else {
            return Err(Refusal::new(Refusal::WRONG_VALUE, values.count()));
        };
        if version != LM_VERSION as i64 {
            return Err(Refusal::new(Refusal::WRONG_VERSION, LM_VERSION_INDEX));
        }
        if !(0..=LM_SUBTYPE_MOST as i64).contains(&subtype) {
            return Err(Refusal::new(Refusal::WRONG_SUBTYPE, 0));
        }
        Ok(())
    }

    /// Reads the whole LM, its parts one after another; user data always starts on an octet.
    pub(super) fn find_user_data(message: &[u8]) -> Result<(usize, usize), Refusal> {
        Self::lm_tests(message)?;
        let lm = Self::lm();
        let mut reader = Reader::<_, Nowhere, F> {
            rows: &lm.octets[..],
            message,
            place: 0,
            values: &mut Nowhere,
            count: 0,
        };
        reader.referred((), lm.n_header)?;
        reader.referred((), lm.t_header)?;
        let length = reader.length(0, u32::from(lm.user_data_most))?;
        let start = reader.place / 8;
        reader.octets(length)?;
        if !planted::<F>(Fault::RestNotTested) {
            reader.end()?;
        }
        Ok((start, length))
    }
}
