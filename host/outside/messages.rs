//! LM, SAM and SRM: what the tools are asked, and the names that the modules written by hand give to
//! fields and branches.

use std::iter;

use teyolxan_host::builtin;
use teyolxan_host::random::{lm_list, Random};

use crate::asn1::{Table, Types, Written};
use crate::cases::{draws, Asked, SEED};

pub fn all() -> [Asked; 3] {
    let mut random = Random::new(SEED + 8);
    let (sam, srm) = (builtin::sam(), builtin::srm());
    // First document 01's P1 to P3, and the worked examples of docs/MESSAGES.md.
    let mut lms = lists(&[
        &[0, 0, 3, 0, 0, 32, 2, 72, 105],
        &[2, 0, 3, 1, 3, 1, 0, 1, 2, 0],
        &[0, 1, 3, 1, 15, 1, 172, 0, 0, 0, 0],
    ]);
    let mut sams = lists(&[
        &[3, 0, 0, 0, 0, 1, 2],
        &[
            3, 1, 1, 1, 0, 1, 2, 1, 17, 1, 50, 1, 32, 1, 0, 1, 0, 8_000, 1, 17, 178, 20, 0, 12, 0,
            0, 0, 0, 0, 0, 0, 0,
        ],
        &[
            3, 0, 0, 1, 0, 0, 0, 1, 17, 178, 20, 0, 12, 0, 0, 0, 0, 0, 0, 1, 0, 0,
        ],
    ]);
    let mut srms = lists(&[
        &[3, 0, 0, 0, 0],
        &[3, 0, 1, 1, 0, 49_152, 2, 32, 135, 1, 0, 1, 2, 7, 9, 49_153],
    ]);
    lms.extend(all_forms(&mut random));
    let drawn = iter::repeat_with(|| lm_list(&mut random)).filter(|drawn| drawn.whole);
    lms.extend(drawn.take(400).map(|drawn| drawn.values()));
    sams.extend(draws(&mut random, &sam, 300, 40));
    srms.extend(draws(&mut random, &srm, 200, 40));
    let asked = |module: &'static Written, octets, lists| Asked {
        module: module.name,
        table: Table {
            name: module.name.to_uppercase(),
            octets,
            types: Types::Written(module),
        },
        lists,
    };
    [
        asked(&LM, builtin::lm(), lms),
        asked(&SAM, sam, sams),
        asked(&SRM, srm, srms),
    ]
}

fn lists(lists: &[&[i64]]) -> Vec<Vec<i64>> {
    lists.iter().map(|list| list.to_vec()).collect()
}

/// Extensions that are there: the count of elements, and the length of each one's contents.
type Extensions = Option<(usize, usize)>;

/// LMs of every N-Header with every T-Header, each without extensions, with no element and with some;
/// and LMs with one part at an edge of its length.
fn all_forms(random: &mut Random) -> Vec<Vec<i64>> {
    let forms: [Extensions; 3] = [None, Some((0, 0)), Some((2, 3))];
    let mut lengths = [0, 1, 2, 127, 128, 129, 300].into_iter().cycle();
    let mut lists = Vec::new();
    for (subtype, original) in [(0, 0), (1, 0), (1, 2), (2, 0)] {
        for network in forms {
            for selector in 0..2 {
                for transport in forms {
                    let mut list = n_header(random, subtype, original, network);
                    list.extend(t_header(random, selector, transport));
                    list.extend(contents(random, lengths.next().unwrap_or(0)));
                    lists.push(list);
                }
            }
        }
    }
    for (elements, user) in [
        (None, 16_382),
        (None, 16_383),
        (Some((1, 127)), 16_383),
        (Some((1, 128)), 5),
        (Some((1, 16_382)), 1),
        (Some((1, 16_383)), 0),
        (Some((127, 1)), 0),
        (Some((128, 1)), 1),
        (Some((255, 1)), 2),
    ] {
        for (subtype, selector) in [(0, 0), (1, 1), (2, 0)] {
            let mut list = n_header(random, subtype, 2, elements);
            list.extend(t_header(random, selector, None));
            list.extend(contents(random, user));
            lists.push(list);
            let mut list = n_header(random, subtype, 0, None);
            list.extend(t_header(random, selector, elements));
            list.extend(contents(random, user));
            lists.push(list);
        }
    }
    lists
}

fn n_header(random: &mut Random, subtype: i64, original: i64, extensions: Extensions) -> Vec<i64> {
    let mut list = vec![subtype, i64::from(extensions.is_some()), 3];
    match subtype {
        1 => {
            list.extend([random.within(0, 255), random.within(0, 65_535)]);
            list.extend((0..9).map(|_| random.within(0, 255)));
        }
        2 => list.extend([random.within(0, 4_194_303), random.within(0, 3)]),
        _ => (),
    }
    list.extend(elements(random, extensions));
    if subtype == 1 {
        let again = if random.one_in(2) { extensions } else { None };
        let mut header = n_header(
            random,
            original,
            0,
            again.filter(|&(_, length)| length < 10),
        );
        header[2] = random.within(0, 7); // its version is not looked at
        list.extend(header);
    }
    list
}

fn t_header(random: &mut Random, selector: i64, extensions: Extensions) -> Vec<i64> {
    let mut list = vec![selector, i64::from(extensions.is_some())];
    match selector {
        0 => list.push(random.within(0, 20_000)),
        _ => list.extend([random.within(0, 65_535), random.within(0, 65_535)]),
    }
    list.extend(elements(random, extensions));
    list
}

fn elements(random: &mut Random, extensions: Extensions) -> Vec<i64> {
    let Some((count, length)) = extensions else {
        return Vec::new();
    };
    let mut list = vec![count as i64];
    for _ in 0..count {
        list.push(random.within(0, 255));
        list.extend(contents(random, length));
    }
    list
}

/// A length and so many octets: a few drawn, then one that repeats.
fn contents(random: &mut Random, length: usize) -> Vec<i64> {
    let last = random.within(0, 255);
    let mut list = vec![length as i64];
    list.extend((0..length).map(|at| if at < 4 { random.within(0, 255) } else { last }));
    list
}

const ELEMENT: &[&str] = &["id", "contents"];

static LM: Written = Written {
    name: "Lm",
    rows: &[
        (30, "Element", ELEMENT),
        (96, "Plain", &["version", "extensions"]),
        (110, "Hops", &["version", "message", "count", "extensions"]),
        (132, "NHeader", &["plain", "internal", "hops"]),
        (
            170,
            "Internal",
            &[
                "version",
                "direction",
                "unit",
                "link",
                "counter",
                "extensions",
                "original",
            ],
        ),
        (204, "NHeader", &["plain", "internal", "hops"]),
        (246, "ByAddress", &["address", "extensions"]),
        (260, "ByPorts", &["source", "destination", "extensions"]),
        (278, "THeader", &["byAddress", "byPorts"]),
        (546, "Lm", &["network", "transport", "userData"]),
    ],
};

static SAM: Written = Written {
    name: "Sam",
    rows: &[
        (30, "Element", ELEMENT),
        (64, "ChangeCount", &["id", "count"]),
        (
            100,
            "ServiceOptions",
            &["system", "replyPort", "extensions"],
        ),
        (118, "Service", &["aid", "channel", "options"]),
        (180, "DataRate", &["adaptable", "rate"]),
        (
            206,
            "ChannelOptions",
            &["o1", "o2", "o3", "o4", "o5", "o6", "o7", "extensions"],
        ),
        (
            244,
            "Channel",
            &["class", "number", "power", "rate", "options"],
        ),
        (
            286,
            "Routing",
            &[
                "lifetime",
                "prefix",
                "prefixLength",
                "gateway",
                "nameServer",
                "extensions",
            ],
        ),
        (
            316,
            "SamBody",
            &["change", "extensions", "services", "channels", "routing"],
        ),
        (342, "Sam", &["version", "body"]),
    ],
};

static SRM: Written = Written {
    name: "Srm",
    rows: &[
        (30, "Element", ELEMENT),
        (76, "Request", &["port", "aids"]),
        (96, "Reference", &["aid", "context"]),
        (110, "Context", &["reference", "data", "clientPort"]),
        (136, "Allocated", &["aid", "clientPort"]),
        (
            158,
            "SrmBody",
            &["extensions", "request", "contexts", "confirm"],
        ),
        (180, "Srm", &["version", "body"]),
    ],
};
