// Numbers and times as they are written in a timetable and in a query.

// Digits only, at least one, no zero ahead of another, and no more than `most`.
pub fn number(bytes: &[u8], most: u32) -> Option<u32> {
    if bytes.is_empty() || bytes.len() > 5 || (bytes[0] == b'0' && bytes.len() > 1) {
        return None;
    }
    let mut value = 0;
    for byte in bytes {
        if !byte.is_ascii_digit() {
            return None;
        }
        value = value * 10 + u32::from(byte - b'0');
    }
    (value <= most).then_some(value)
}

// Two digits, a colon and two digits, the last two at most 59, as minutes.
pub fn time(bytes: &[u8]) -> Option<u16> {
    let [a, b, b':', c, d] = bytes else {
        return None;
    };
    if ![a, b, c, d].iter().all(|digit| digit.is_ascii_digit()) || *c > b'5' {
        return None;
    }
    let two = |tens: &u8, ones: &u8| u16::from(tens - b'0') * 10 + u16::from(ones - b'0');
    Some(two(a, b) * 60 + two(c, d))
}
