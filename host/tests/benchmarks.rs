//! The benchmark's calls, each made once: it looks itself that they give what they should.

use std::process::Command;

/// Reading and writing of eight messages in four ways, of five that have no name in two; all read through
/// a state; seven LMs read straight, and plain with values as octets and as numbers; four fetches in four
/// ways; four tables checked in two, and loaded; five messages forwarded in two.
#[test]
fn each_call_gives_what_it_should() {
    let output = Command::new(env!("CARGO_BIN_EXE_bench"))
        .arg("once")
        .output()
        .expect("the benchmark runs");
    assert!(
        output.status.success(),
        "{}",
        String::from_utf8_lossy(&output.stderr)
    );
    let messages = 2 * (8 * 4 + 5 * 2) + 13 + 3 * 7;
    let asn1c = if cfg!(feature = "asn1c") { 26 } else { 0 };
    let told = format!("{} calls\n", messages + 4 * 4 + 4 * 3 + 5 * 2 + asn1c);
    assert_eq!(String::from_utf8_lossy(&output.stdout), told);
}
