//! Bytes written in hexadecimal, two digits a byte, small or capital letters.

pub fn bytes(text: &str) -> Option<Vec<u8>> {
    let mut digits = Vec::new();
    for letter in text.chars() {
        digits.push(letter.to_digit(16)? as u8);
    }
    if digits.len() % 2 != 0 {
        return None;
    }
    Some(digits.chunks(2).map(|pair| pair[0] * 16 + pair[1]).collect())
}
