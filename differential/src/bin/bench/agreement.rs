//! Whether the contestants give the same.

use crate::table::Who;

/// Sees that a contestant gave the original's bytes.
pub fn same_bytes(who: Who, original: &[u8], given: &[u8]) -> Result<(), String> {
    if original.len() != given.len() {
        return Err(format!(
            "the original gives {} bytes and {} {}",
            original.len(),
            who.name(),
            given.len(),
        ));
    }
    match (0..original.len()).find(|place| given[*place] != original[*place]) {
        None => Ok(()),
        Some(place) => Err(format!(
            "the original gives {} and {} {} at place {place}",
            original[place],
            who.name(),
            given[place],
        )),
    }
}

/// Bytes none of which is the original's, to be overwritten.
pub fn unlike(original: &[u8]) -> Vec<u8> {
    original.iter().map(|byte| !byte).collect()
}
