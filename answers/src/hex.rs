//! Hexadecimal digits, with spaces wherever they help the eye.

/// The bytes of a text, or which digit is wrong, counted from 1.
pub fn read(text: &str) -> Result<Vec<u8>, String> {
    let mut digits = Vec::new();
    for letter in text.chars().filter(|letter| !letter.is_whitespace()) {
        match letter.to_digit(16) {
            Some(digit) => digits.push(digit as u8),
            None => return Err(format!("digit {} is '{letter}', which is not hexadecimal", digits.len() + 1)),
        }
    }
    if digits.len() % 2 == 1 {
        return Err(format!("{} hexadecimal digits: byte {} lacks its second", digits.len(), digits.len() / 2));
    }
    Ok(digits.chunks_exact(2).map(|pair| pair[0] << 4 | pair[1]).collect())
}

/// The digits of bytes.
pub fn write(bytes: &[u8]) -> String {
    bytes.iter().map(|byte| format!("{byte:02x}")).collect()
}

#[cfg(test)]
mod tests {
    use super::*;

    #[test]
    fn both_ways() {
        assert_eq!(read("50 40 0005 4f"), Ok(vec![0x50, 0x40, 0, 5, 0x4f]));
        assert_eq!(write(&[0x50, 0x4f]), "504f");
        assert_eq!(read("504"), Err("3 hexadecimal digits: byte 1 lacks its second".into()));
        assert_eq!(read("50g4"), Err("digit 3 is 'g', which is not hexadecimal".into()));
    }
}
