//! Bytes in words of pairs of digits, as vectors have them.

/// Returns the bytes of some words. `WORD*N` is the word N times.
pub fn bytes(words: &str) -> Vec<u8> {
    let mut bytes = Vec::new();
    for word in words.split_whitespace() {
        let (digits, times) = word.split_once('*').unwrap_or((word, "1"));
        let pairs = (0..digits.len()).step_by(2).map(|at| &digits[at..at + 2]);
        let word: Vec<u8> = pairs
            .map(|pair| u8::from_str_radix(pair, 16).unwrap())
            .collect();
        bytes.extend(word.repeat(times.parse().unwrap()));
    }
    bytes
}
