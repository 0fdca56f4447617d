//! Floating numbers: F is IEEE's binary32, D its binary64. How they are written and read, and what they are in words.

use crate::size::Size;

/// As a source writes it: the shortest decimal number that gives these bits; of infinities and NaNs, which have none, the bits.
pub fn written(bits: u64, size: Size) -> String {
    let decimal = match size {
        Size::D => Some(f64::from_bits(bits)).filter(|number| number.is_finite()).map(|number| format!("{number:?}")),
        _ => Some(f32::from_bits(bits as u32)).filter(|number| number.is_finite()).map(|number| format!("{number:?}")),
    };
    decimal.map_or_else(|| digits(bits, size), |decimal| decimal.replace('e', "E"))
}

/// For a reader: an infinity and NaN by their names.
pub fn in_words(bits: u64, size: Size) -> String {
    let number = match size {
        Size::D => f64::from_bits(bits),
        _ => f64::from(f32::from_bits(bits as u32)),
    };
    match (number.is_nan(), number.is_infinite(), number.is_sign_negative()) {
        (true, ..) => "NaN".to_string(),
        (_, true, true) => "-infinity".to_string(),
        (_, true, false) => "infinity".to_string(),
        _ => written(bits, size),
    }
}

/// The bits, all digits of them: `7FC00000h`.
pub fn digits(bits: u64, size: Size) -> String {
    let width = 2 * size.bytes() as usize;
    format!("{bits:0width$X}h")
}

/// The bits of the floating number that is nearest to a decimal one, of two the even one; none where that is infinite.
pub fn of_decimal(text: &str, size: Size) -> Option<u64> {
    match size {
        Size::D => text.parse().ok().filter(|number: &f64| number.is_finite()).map(f64::to_bits),
        _ => text.parse().ok().filter(|number: &f32| number.is_finite()).map(|number| u64::from(number.to_bits())),
    }
}

/// The largest number of a kind.
pub fn largest(size: Size) -> String {
    match size {
        Size::D => written(f64::MAX.to_bits(), size),
        _ => written(u64::from(f32::MAX.to_bits()), size),
    }
}

/// The bits of infinity.
pub fn infinity(size: Size) -> u64 {
    match size {
        Size::D => f64::INFINITY.to_bits(),
        _ => u64::from(f32::INFINITY.to_bits()),
    }
}

/// Whether a text is a decimal number without a sign, whole or floating: `15`, `1.5`, `15E-1`.
pub fn is_decimal(text: &str) -> bool {
    let (number, exponent) = match text.split_once(['E', 'e']) {
        Some((number, exponent)) => (number, exponent.strip_prefix(['+', '-']).unwrap_or(exponent)),
        None => (text, "0"),
    };
    let (whole, fraction) = number.split_once('.').unwrap_or((number, "0"));
    [whole, fraction, exponent].into_iter().all(is_whole)
}

/// Whether a text has decimal digits alone.
pub fn is_whole(text: &str) -> bool {
    !text.is_empty() && text.bytes().all(|byte| byte.is_ascii_digit())
}

#[cfg(test)]
mod tests {
    use super::*;

    #[test]
    fn what_is_written_gives_the_same_bits() {
        for (bits, text) in [
            (0x3FC0_0000, "1.5"),
            (0x8000_0000, "-0.0"),
            (1, "1E-45"),
            (0x7F7F_FFFF, "3.4028235E38"),
            (0x4B80_0001, "16777218.0"),
        ] {
            assert_eq!((written(bits, Size::F).as_str(), of_decimal(text, Size::F)), (text, Some(bits)));
        }
        assert_eq!(written(0xC00A_0000_0000_0000, Size::D), "-3.25");
        assert_eq!(of_decimal("1E-400", Size::D), Some(0));
        assert_eq!((of_decimal("1E39", Size::F), of_decimal("-1E309", Size::D)), (None, None));
        assert_eq!(written(0xFFC0_0001, Size::F), "FFC00001h");
        assert_eq!(written(infinity(Size::D), Size::D), "7FF0000000000000h");
    }

    #[test]
    fn decimal_numbers() {
        for text in ["0", "15", "1.5", "1E5", "1e5", "1.5E-3", "1E+0", "007.250"] {
            assert!(is_decimal(text), "{text}");
        }
        for text in ["", ".5", "1.", "1E", "1E+", "E5", "1.5h", "1E5h", "1.E5", "1E5.0", "1.2.3", "-1", "inf", "1_0"] {
            assert!(!is_decimal(text), "{text}");
        }
    }
}
