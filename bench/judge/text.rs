//! Lines, and the words in them.

/// The lines of a text, each of which a line feed ends.
pub fn lines(text: &str) -> Result<Vec<&str>, String> {
    match text.strip_suffix('\n') {
        Some(text) => Ok(text.split('\n').collect()),
        None => Err("the last line has no line feed".to_string()),
    }
}

/// The number that these digits write, without a leading zero.
pub fn number(digits: &str) -> Option<u64> {
    let is_short = digits == "0" || !digits.starts_with('0');
    let are_digits = !digits.is_empty() && digits.bytes().all(|byte| byte.is_ascii_digit());
    if is_short && are_digits {
        digits.parse().ok()
    } else {
        None
    }
}

/// The number of a line that is this word, a blank and the number.
pub fn numbered(line: &str, word: &str) -> Option<u64> {
    number(line.strip_prefix(word)?.strip_prefix(' ')?)
}
