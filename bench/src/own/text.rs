//! Decimal and hexadecimal numbers as text.

/// Appends a number in decimal.
pub fn push_decimal(text: &mut Vec<u8>, mut number: u64) {
    let mut digits = [0; 20];
    let mut first = digits.len();
    loop {
        first -= 1;
        digits[first] = b'0' + (number % 10) as u8;
        number /= 10;
        if number == 0 {
            break;
        }
    }
    text.extend_from_slice(&digits[first..]);
}

/// Appends bytes as lower-case hexadecimal digits, two for each.
pub fn push_hex(text: &mut Vec<u8>, bytes: &[u8]) {
    const DIGITS: &[u8; 16] = b"0123456789abcdef";
    for byte in bytes {
        text.push(DIGITS[usize::from(byte >> 4)]);
        text.push(DIGITS[usize::from(byte & 15)]);
    }
}

/// Appends numbers in decimal, a blank before each.
pub fn push_numbers(text: &mut Vec<u8>, numbers: &[u64]) {
    for &number in numbers {
        text.push(b' ');
        push_decimal(text, number);
    }
}

#[cfg(test)]
mod tests {
    use super::*;

    #[test]
    fn decimal_as_the_library_prints_it() {
        let edges = [0, 1, 9, 10, 99, 100, 65_535, u64::from(u32::MAX), u64::MAX - 1, u64::MAX];
        for number in edges {
            let mut text = Vec::new();
            push_decimal(&mut text, number);
            assert_eq!(text, number.to_string().into_bytes());
        }
    }

    #[test]
    fn hex_is_lower_case_and_two_digits_a_byte() {
        let mut text = Vec::new();
        push_hex(&mut text, &[0x00, 0x0A, 0xF0, 0xFF]);
        assert_eq!(text, b"000af0ff");
    }

    #[test]
    fn numbers_with_blanks() {
        let mut text = b"sample".to_vec();
        push_numbers(&mut text, &[1, 63, 0]);
        assert_eq!(text, b"sample 1 63 0");
    }
}
