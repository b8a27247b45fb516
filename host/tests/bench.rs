//! The bench program, as `./build bench` built it, on the case files and on the examples beside it.

use teyolxan_host::codec::{Call, Codec};
use teyolxan_host::programs::{pairs, printed};
use teyolxan_host::vectors::{pass, BASE, EDGES, STAGE01, STAGE02};

struct Program;

impl Codec for Program {
    fn name(&self) -> String {
        "bench program".to_string()
    }

    fn offers(&self, call: Call) -> bool {
        call == Call::Bench
    }

    fn bench(&self, input: &[u8]) -> String {
        String::from_utf8(printed("bench", input)).expect("lines of text")
    }
}

#[test]
fn vectors() {
    for (text, count) in [(BASE, 53), (EDGES, 13), (STAGE01, 3), (STAGE02, 36)] {
        assert_eq!(pass(&Program, text), count);
    }
}

#[test]
fn examples() {
    let examples = pairs("crates/bench/examples", "in", "out");
    for (path, input, expected) in &examples {
        assert!(printed("bench", input) == *expected, "{}", path.display());
    }
    assert_eq!(examples.len(), 19);
}

/// Two hundred thousand frames, in a stream far longer than the program's buffer.
#[test]
fn a_long_stream() {
    let frame = [10, 0, 1, 0, 0x03, 0, 0x20, 2, 0x48, 0x69];
    let count = 200_000;
    let lines = printed("bench", &frame.repeat(count));
    let expected = format!(
        "{}frames {count}\n",
        "ok 9: 0 0 3 0 0 32 2 72 105\n".repeat(count)
    );
    assert!(lines == expected.into_bytes());
}
