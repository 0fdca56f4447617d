//! Memory as rows of sixteen bytes: address, words in hexadecimal, letters.

/// Rows from an address on. `bytes` has none where a byte cannot be read.
pub fn rows(address: u32, bytes: &[Option<u8>]) -> Vec<String> {
    let row = |(place, row): (usize, &[Option<u8>])| {
        let at = address.wrapping_add(16 * place as u32);
        let words: Vec<String> = row.chunks(4).map(|word| word.iter().map(digits).collect()).collect();
        let letters: String = row.iter().map(letter).collect();
        format!("{at:04X}h  {:35}  {letters}", words.join(" "))
    };
    bytes.chunks(16).enumerate().map(row).collect()
}

fn digits(byte: &Option<u8>) -> String {
    byte.map_or_else(|| "..".to_string(), |byte| format!("{byte:02X}"))
}

fn letter(byte: &Option<u8>) -> char {
    match byte {
        Some(byte @ 0x20..=0x7E) => char::from(*byte),
        _ => '.',
    }
}

#[cfg(test)]
mod tests {
    use super::*;

    #[test]
    fn a_row_and_a_rest() {
        let bytes: Vec<Option<u8>> = (0x40..0x52).map(Some).chain([None]).collect();
        let rows = rows(0x410, &bytes);
        assert_eq!(rows[0], "0410h  40414243 44454647 48494A4B 4C4D4E4F  @ABCDEFGHIJKLMNO");
        assert_eq!(rows[1], "0420h  5051..                               PQ.");
    }
}
