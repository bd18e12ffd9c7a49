//! Bytes in hex.

use super::alloc::AllocError;
use super::string::GrowText;

/// Contract: two lower-case digits for each byte, in order.
pub fn encode(bytes: &[u8]) -> Result<String, AllocError> {
    let mut text = String::new();
    for byte in bytes {
        write!(text, "{byte:02x}")?;
    }
    Ok(text)
}

#[cfg(test)]
mod tests {
    #[test]
    fn each_byte_has_two_digits() {
        let Ok(text) = super::encode(&[0, 0xA5, 0xFF]);
        assert_eq!(text.as_str(), "00a5ff");
    }
}
