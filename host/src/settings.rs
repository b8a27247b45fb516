//! Numbers from the environment, with which a test is repeated or made longer.

use std::env;
use std::time::{SystemTime, UNIX_EPOCH};

/// The number that a variable of the environment holds, if there is this variable.
pub fn number(name: &str) -> Option<u64> {
    let text = env::var(name).ok()?;
    match text.parse() {
        Ok(number) => Some(number),
        Err(_) => panic!("{name} is no number: {text}"),
    }
}

/// A seed from the environment, or from the clock: then every run draws other cases.
pub fn seed(name: &str) -> u64 {
    let now = SystemTime::now().duration_since(UNIX_EPOCH);
    number(name).unwrap_or(now.map_or(0, |since| since.as_nanos() as u64))
}
