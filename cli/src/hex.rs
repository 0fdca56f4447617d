//! Commented hexadecimal, by the rules of tools/bytes.

use crate::image::{complaint, Complaint, LARGEST};

/// The bytes of a source; the first word that is wrong ends it.
pub fn bytes(file: &str, source: &[u8]) -> Result<Vec<u8>, Vec<Complaint>> {
    let mut bytes = Vec::new();
    for (index, line) in lines(source).enumerate() {
        let text = line.split(|byte| *byte == b'#').next().unwrap_or(&[]);
        let mut column = 1;
        for word in text.split(|byte| byte.is_ascii_whitespace() || *byte == 0x0B) {
            if !word.is_empty() {
                let result = put(word, &mut bytes);
                result.map_err(|sentence| vec![complaint(file, index + 1, column, sentence)])?;
            }
            column += word.len() + 1;
        }
    }
    Ok(bytes)
}

/// Lines end with a line feed, a carriage return, or both.
fn lines(source: &[u8]) -> impl Iterator<Item = &[u8]> {
    let mut rest = Some(source);
    std::iter::from_fn(move || {
        let source = rest?;
        let Some(end) = source.iter().position(|byte| matches!(byte, b'\n' | b'\r')) else {
            rest = None;
            return Some(source);
        };
        let both = source.get(end..end + 2) == Some(b"\r\n");
        rest = source.get(end + if both { 2 } else { 1 }..);
        source.get(..end)
    })
}

fn put(word: &[u8], bytes: &mut Vec<u8>) -> Result<(), String> {
    let text = String::from_utf8_lossy(word);
    let here = bytes.len();
    if let Some(address) = text.strip_prefix('@').and_then(address) {
        if address > LARGEST {
            return Err(past(&text));
        }
        if address < here {
            return Err(format!("'{text}' goes back; the bytes before it end at {here:X}h"));
        }
        bytes.resize(address, 0);
        return Ok(());
    }
    if let Some(address) = text.strip_suffix(':').and_then(address) {
        return match address == here {
            true => Ok(()),
            false => Err(format!("'{text}' is not the address here, which is {here:X}h")),
        };
    }
    let Some((times, digits)) = repeated(&text) else {
        return Err(format!("'{}' is none of HH.. (pairs of hexadecimal digits), N*HH.., @A and A:", shown(&text)));
    };
    if times.saturating_mul(digits.len()).saturating_add(here) > LARGEST {
        return Err(past(&text));
    }
    bytes.extend(digits.repeat(times));
    Ok(())
}

fn past(word: &str) -> String {
    format!("'{}' goes past {LARGEST} bytes", shown(word))
}

fn shown(word: &str) -> String {
    word.chars().take(20).map(|c| if c.is_ascii_graphic() { c } else { '?' }).collect()
}

fn address(digits: &str) -> Option<usize> {
    let fits = (1..=8).contains(&digits.len()) && digits.bytes().all(|byte| byte.is_ascii_hexdigit());
    fits.then(|| usize::from_str_radix(digits, 16).ok()).flatten()
}

/// How often, and the bytes.
fn repeated(word: &str) -> Option<(usize, Vec<u8>)> {
    let (times, digits) = match word.split_once('*') {
        None => (1, word),
        Some((times, digits)) => {
            let fits = (1..=8).contains(&times.len()) && times.bytes().all(|byte| byte.is_ascii_digit());
            (fits.then(|| times.parse().ok()).flatten()?, digits)
        }
    };
    let pairs = digits.as_bytes().chunks(2).map(|pair| {
        let text = std::str::from_utf8(pair).ok().filter(|text| text.len() == 2)?;
        let all = text.bytes().all(|byte| byte.is_ascii_hexdigit());
        all.then(|| u8::from_str_radix(text, 16).ok()).flatten()
    });
    let bytes: Option<Vec<u8>> = pairs.collect();
    bytes.filter(|bytes| !bytes.is_empty()).map(|bytes| (times, bytes))
}
