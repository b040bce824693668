//! Numbers, bytes and entries as a line of a text gives them (RECORDS.md); `None` is what no line has.

/// Bytes: letters and digits as they stand, or in hexadecimal, or one letter so many times.
pub fn bytes(word: &str) -> Option<Vec<u8>> {
    if word == "\"\"" {
        return Some(Vec::new());
    }
    if let Some(digits) = word.strip_prefix("x:") {
        return hex(digits);
    }
    if let Some((letter, times)) = word.split_once('*') {
        let [letter] = letter.as_bytes() else { return None };
        return Some(vec![*letter; times.parse().ok()?]);
    }
    let plain = |b: &u8| b.is_ascii_alphanumeric() || *b == b'_';
    let formed = !word.is_empty() && word.as_bytes().iter().all(plain);
    formed.then(|| word.into())
}

/// Bytes of two digits each.
pub fn hex(digits: &str) -> Option<Vec<u8>> {
    let pairs = digits.as_bytes().chunks(2);
    let byte = |pair: &[u8]| match pair {
        [_, _] => u8::from_str_radix(std::str::from_utf8(pair).ok()?, 16).ok(),
        _ => None,
    };
    pairs.map(byte).collect()
}

/// A key with a number or a snapshot, as a@3; the key may be left out.
pub fn keyed(word: &str) -> Option<(&str, u64)> {
    let (key, number) = word.split_once('@')?;
    Some((key, number.parse().ok()?))
}

/// An entry, as a@1=x, a@3-z, a@1~2=x: key, number, type and value.
pub fn entry(word: &str) -> Option<(Vec<u8>, u64, u8, Vec<u8>)> {
    let (key, tail) = word.split_once('@')?;
    let mark = tail.find(|c: char| !c.is_ascii_digit())?;
    let (number, tail) = tail.split_at(mark);
    let (kind, value) = match tail.split_at(1) {
        ("=", value) => (1, value),
        ("-", value) => (0, value),
        ("~", typed) => {
            let (kind, value) = typed.split_once('=')?;
            (kind.parse().ok()?, value)
        }
        _ => return None,
    };
    let value = if value.is_empty() { Vec::new() } else { bytes(value)? };
    Some((bytes(key)?, number.parse().ok()?, kind, value))
}
