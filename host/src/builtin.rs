//! The built-in tables, assembled as docs/MESSAGES.md lists their rows. The calls by name have them
//! inside; here they are for lending.

use crate::assemble::{Assembler, Offset};

/// The rows that open all three tables.
struct Opening {
    octet: Offset,
    two_octets: Offset,
    extensions: Offset,
}

fn opening(table: &mut Assembler) -> Opening {
    let octet = table.number(0, 255);
    let two_octets = table.number(0, 65_535);
    let contents = table.open_octets(16_383);
    let element = table.record(&[always(octet), always(contents)]);
    let extensions = table.counted_run(255, element);
    Opening {
        octet,
        two_octets,
        extensions,
    }
}

fn always(row: Offset) -> (Offset, bool) {
    (row, false)
}

fn optional(row: Offset) -> (Offset, bool) {
    (row, true)
}

/// The localized message.
pub fn lm() -> Vec<u8> {
    let mut table = Assembler::new();
    let Opening {
        octet,
        two_octets,
        extensions,
    } = opening(&mut table);

    let version = table.number(0, 7);
    let message_id = table.number(0, 4_194_303);
    let hop_count = table.number(0, 3);
    let link_id = table.fixed_run(8, octet);
    let branch_0 = table.record(&[always(version), optional(extensions)]);
    let branch_2 = table.record(&[
        always(version),
        always(message_id),
        always(hop_count),
        optional(extensions),
    ]);
    let mut branches = [None; 16];
    branches[0] = Some(branch_0);
    branches[2] = Some(branch_2);
    let original_n_header = table.choice(&branches);
    let branch_1 = table.record(&[
        always(version),
        always(octet),      // direction
        always(two_octets), // ITS-SCU-ID
        always(link_id),
        always(octet), // counter
        optional(extensions),
        always(original_n_header),
    ]);
    branches[1] = Some(branch_1);
    let n_header = table.choice(&branches);

    let address = table.variable();
    let by_address = table.record(&[always(address), optional(extensions)]);
    let by_ports = table.record(&[always(two_octets), always(two_octets), optional(extensions)]);
    let mut branches = [None; 128];
    branches[0] = Some(by_address);
    branches[1] = Some(by_ports);
    let t_header = table.choice(&branches);

    let user_data = table.octets(16_383);
    table.record(&[always(n_header), always(t_header), always(user_data)]);
    table.finish()
}

/// The service advertisement message.
pub fn sam() -> Vec<u8> {
    let mut table = Assembler::new();
    let Opening {
        octet,
        two_octets,
        extensions,
    } = opening(&mut table);

    let four_bits = table.number(0, 15); // version, SAM-ID, SAM-Count
    let change_count = table.record(&[always(four_bits), always(four_bits)]);

    let its_aid = table.variable();
    let channel_index = table.number(0, 31);
    let system_service = table.octets(16_383);
    let service_options = table.record(&[
        optional(system_service),
        optional(two_octets), // reply port
        optional(extensions),
    ]);
    let service_info = table.record(&[
        always(its_aid),
        always(channel_index),
        always(service_options),
    ]);
    let service_infos = table.counted_run(31, service_info);

    let power_level = table.number(-128, 255);
    let adaptable = table.number(0, 1);
    let data_rate = table.number(0, 127);
    let channel_data_rate = table.record(&[always(adaptable), always(data_rate)]);
    let null = table.number(0, 0);
    let mut options = [optional(null); 8];
    options[7] = optional(extensions);
    let channel_options = table.record(&options);
    let channel_info = table.record(&[
        always(octet), // operating class
        always(octet), // channel number
        always(power_level),
        always(channel_data_rate),
        always(channel_options),
    ]);
    let channel_infos = table.counted_run(31, channel_info);

    let ipv6_address = table.fixed_run(16, octet);
    let routing_advertisement = table.record(&[
        always(two_octets), // lifetime
        always(ipv6_address),
        always(octet), // length of the prefix
        always(ipv6_address),
        always(ipv6_address),
        always(extensions),
    ]);

    let body = table.record(&[
        always(change_count),
        optional(extensions),
        optional(service_infos),
        optional(channel_infos),
        optional(routing_advertisement),
    ]);
    table.record(&[always(four_bits), always(body)]);
    table.finish()
}

/// The service response message.
pub fn srm() -> Vec<u8> {
    let mut table = Assembler::new();
    let Opening {
        octet,
        two_octets,
        extensions,
    } = opening(&mut table);

    let version = table.number(0, 15);
    let its_aid = table.variable();
    let its_aids = table.counted_run(16_383, its_aid);
    let request = table.record(&[always(two_octets), always(its_aids)]);
    let context_data = table.open_octets(16_383);
    let context_reference = table.record(&[always(its_aid), always(octet)]);
    let context_set = table.record(&[
        always(context_reference),
        always(context_data),
        always(two_octets), // client port
    ]);
    let context_information = table.counted_run(16_383, context_set);
    let allocated_channel = table.record(&[always(its_aid), always(two_octets)]);
    let confirm = table.counted_run(16_383, allocated_channel);
    let body = table.record(&[
        optional(extensions),
        optional(request),
        optional(context_information),
        optional(confirm),
    ]);
    table.record(&[always(version), always(body)]);
    table.finish()
}

#[cfg(test)]
mod tests {
    use super::*;
    use crate::reference::root_of;

    /// The octets of a table in the crate that is proved: numbers joined by `∷`, a row a line.
    fn proved(name: &str) -> Vec<u8> {
        let text = include_str!("../../crates/builtin/specs/Tables.antt");
        let (_, rest) = text
            .split_once(&format!("\n{name} =\n"))
            .expect("the table is defined");
        let (rows, _) = rest.split_once("∷ []").expect("the list ends");
        rows.lines()
            .map(|row| row.split("--").next().unwrap_or(""))
            .flat_map(|row| row.split('∷'))
            .filter(|number| !number.trim().is_empty())
            .map(|number| number.trim().parse().expect("an octet"))
            .collect()
    }

    #[test]
    fn tables_are_the_proved_ones() {
        for (name, table, size, root) in [
            ("lm", lm(), 564, 546),
            ("sam", sam(), 356, 342),
            ("srm", srm(), 194, 180),
        ] {
            assert_eq!(table, proved(name), "{name}");
            assert_eq!(table.len(), size, "{name}");
            assert_eq!(root_of(&table), Some(root), "{name}");
        }
    }
}
