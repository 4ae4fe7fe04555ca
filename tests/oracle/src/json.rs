//! A reader of flat JSON objects: one object a line, values are strings, whole numbers, true or false.

use std::collections::BTreeMap;

/// A value as text: a string without its quotes, anything else as it stands.
pub type Object = BTreeMap<String, String>;

/// Reads `{"name":value,...}`. Escapes in strings are kept as they stand.
pub fn object(line: &str) -> Option<Object> {
    let mut rest = line.trim().strip_prefix('{')?.trim_start();
    let mut result = Object::new();
    loop {
        if rest == "}" {
            return Some(result);
        }
        let (name, behind) = string(rest)?;
        let behind = behind.trim_start().strip_prefix(':')?.trim_start();
        let (value, behind) = if behind.starts_with('"') {
            string(behind)?
        } else {
            let end = behind.find([',', '}'])?;
            (behind[..end].trim(), &behind[end..])
        };
        result.insert(name.to_string(), value.to_string());
        let behind = behind.trim_start();
        rest = behind.strip_prefix(',').unwrap_or(behind).trim_start();
    }
}

/// A string in quotes, and what stands behind it. A backslash and the byte behind it belong to the string.
fn string(text: &str) -> Option<(&str, &str)> {
    let inner = text.strip_prefix('"')?;
    let mut end = 0;
    while *inner.as_bytes().get(end)? != b'"' {
        end += if inner.as_bytes()[end] == b'\\' { 2 } else { 1 };
    }
    Some((&inner[..end], &inner[end + 1..]))
}

/// Bytes written as two hexadecimal digits each.
pub fn hex(text: &str) -> Option<Vec<u8>> {
    let digits: Option<Vec<u32>> = text.chars().map(|digit| digit.to_digit(16)).collect();
    let digits = digits?;
    (digits.len() % 2 == 0).then(|| digits.chunks(2).map(|pair| (pair[0] * 16 + pair[1]) as u8).collect())
}

#[cfg(test)]
mod tests {
    use super::*;

    #[test]
    fn flat_objects() {
        let read = object("{\"a\":\"0aff\", \"b\":12,\"c\":true}").expect("an object");
        assert_eq!(hex(&read["a"]), Some(vec![10, 255]));
        assert_eq!((read["b"].as_str(), read["c"].as_str()), ("12", "true"));
        assert_eq!(object("{\"a\":\"x\\\"y\"}").expect("an object")["a"], "x\\\"y");
        assert_eq!(object("{\"a\":\"x"), None);
        assert_eq!(hex("abc"), None);
    }
}
