//! Bytes as printable text, and back.
//!
//! Printable ASCII stands for itself, but a backslash is `\\`, and every other byte is `\xNN`. A space at either end is `\x20`, so
//! that nothing is lost where ends are trimmed. What is read may hold any byte as it is, but a backslash.

/// `also` names bytes that are written as `\xNN` though they are printable.
pub fn shown(bytes: &[u8], also: &[u8]) -> String {
    let last = bytes.len().saturating_sub(1);
    let mut text = String::with_capacity(bytes.len());
    for (at, byte) in bytes.iter().enumerate() {
        let space_at_end = *byte == b' ' && (at == 0 || at == last);
        match byte {
            b'\\' => text.push_str("\\\\"),
            b' '..=b'~' if !space_at_end && !also.contains(byte) => text.push(char::from(*byte)),
            _ => text.push_str(&format!("\\x{byte:02x}")),
        }
    }
    text
}

/// The bytes that a text stands for.
pub fn read(text: &[u8]) -> Result<Vec<u8>, String> {
    let mut bytes = Vec::with_capacity(text.len());
    let mut rest = text;
    while let [first, after @ ..] = rest {
        rest = after;
        if *first != b'\\' {
            bytes.push(*first);
            continue;
        }
        let (byte, after) = match after {
            [b'\\', after @ ..] => (Some(b'\\'), after),
            [b'x', high, low, after @ ..] => (hex(*high, *low), after),
            _ => (None, after),
        };
        bytes.push(byte.ok_or_else(|| {
            let place = text.len() - rest.len();
            format!("the backslash at place {place} is followed neither by another one nor by x and two hexadecimal digits")
        })?);
        rest = after;
    }
    Ok(bytes)
}

fn hex(high: u8, low: u8) -> Option<u8> {
    let digit = |byte: u8| char::from(byte).to_digit(16).and_then(|digit| u8::try_from(digit).ok());
    Some(digit(high)? * 16 + digit(low)?)
}

#[cfg(test)]
mod tests {
    use super::*;

    #[test]
    fn every_byte_comes_back() {
        let all: Vec<u8> = (0..=u8::MAX).chain(*b" a=b \\x41 ").collect();
        for also in [&b""[..], b"="] {
            let text = shown(&all, also);
            assert!(text.bytes().all(|byte| (b' '..=b'~').contains(&byte)));
            assert!(also.iter().all(|byte| !text.as_bytes().contains(byte)));
            assert_eq!(read(text.as_bytes()), Ok(all.clone()));
        }
        assert_eq!(shown(b" a b ", b""), "\\x20a b\\x20");
        assert_eq!(read(b"\\x4A\\x4a\xff"), Ok(vec![0x4a, 0x4a, 0xff]));
        for wrong in [&b"\\"[..], b"a\\n", b"\\x4", b"\\x4g", b"\\x+1"] {
            assert!(read(wrong).is_err());
        }
    }
}
