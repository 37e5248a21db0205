//! Bytes as hexadecimal digits.

pub fn write(bytes: &[u8]) -> String {
    bytes.iter().map(|byte| format!("{byte:02x}")).collect()
}

/// Reads digits of either case; white space counts for nothing.
pub fn read(text: &str) -> Result<Vec<u8>, String> {
    let mut digits = Vec::new();
    for letter in text.chars().filter(|letter| !letter.is_whitespace()) {
        let digit = letter.to_digit(16).ok_or(format!("'{letter}' is not a hexadecimal digit"))?;
        digits.push(digit as u8);
    }
    if digits.len() % 2 == 1 {
        return Err(format!("{} hexadecimal digits make no whole bytes", digits.len()));
    }
    Ok(digits.chunks_exact(2).map(|pair| pair[0] << 4 | pair[1]).collect())
}

/// Reads digits of the source.
pub fn literal(text: &str) -> Vec<u8> {
    read(text).expect("hexadecimal digits in pairs")
}

#[cfg(test)]
#[path = "tests/hex.rs"]
mod tests;
