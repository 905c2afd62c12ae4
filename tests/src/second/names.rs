//! Identifiers (G section 3.6.1), and names compared. Characters are bytes (reading 14).

/// Document 01, stages 3 and 8: names of elements and of metadata have at most 32 characters.
pub const LONGEST_NAME: usize = 32;

/// The five numbered rules of G section 3.6.1, with the maximum length of rule 3 given, and the
/// paragraph beneath them.
pub fn is_identifier(name: &[u8], longest: usize) -> bool {
    // Rule 2: at least one character. Rule 4: it begins with a letter.
    let begins_with_letter = name.first().is_some_and(u8::is_ascii_alphabetic);
    // Rules 1 and 4: ASCII letters, numbers and underscores. Rule 5, that case counts, is a matter
    // of comparing.
    let characters = name.iter().all(|byte| byte.is_ascii_alphanumeric() || *byte == b'_');
    // Beneath: identifiers "avoid the use of leading and trailing underscores". These are refused
    // (Req 02), a leading one by rule 4.
    let ends_well = name.last() != Some(&b'_');
    begins_with_letter && characters && name.len() <= longest && ends_well
}

/// Req 04: whether two names are equal, and the byte pairs read: "none if the lengths differ, all
/// if the names are equal, else up to and with the first that differs".
pub fn compare(a: &[u8], b: &[u8]) -> (bool, u64) {
    if a.len() != b.len() {
        return (false, 0);
    }
    let first = a.iter().zip(b).position(|(x, y)| x != y);
    let pairs = first.map_or(a.len(), |at| at + 1);
    (first.is_none(), pairs as u64)
}
