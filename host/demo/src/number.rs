//! Whole numbers as text.

use std::num::IntErrorKind;

/// A whole number of any size, clamped to 128 bits.
fn whole(text: &str) -> Option<i128> {
    match text.parse() {
        Ok(number) => Some(number),
        Err(error) => match error.kind() {
            IntErrorKind::PosOverflow => Some(i128::MAX),
            IntErrorKind::NegOverflow => Some(i128::MIN),
            _ => None,
        },
    }
}

/// A side or iterations. A number that does not fit becomes the largest, which is out of range too.
pub fn count(text: &str) -> Option<u32> {
    let number = whole(text)?;
    Some(number.try_into().unwrap_or(u32::MAX))
}

/// A left or top, clamped: the largest and the smallest are out of range too.
pub fn corner(text: &str) -> Option<i32> {
    let number = whole(text)?;
    Some(number.clamp(i32::MIN.into(), i32::MAX.into()) as i32)
}

/// A number as printed: `1,179,648`.
pub fn grouped(number: usize) -> String {
    let digits = number.to_string();
    let mut text = String::new();
    for (place, digit) in digits.chars().enumerate() {
        if place > 0 && (digits.len() - place).is_multiple_of(3) {
            text.push(',');
        }
        text.push(digit);
    }
    text
}

#[cfg(test)]
mod tests {
    use super::*;

    #[test]
    fn every_whole_number_is_accepted() {
        let ten_to_30 = "1000000000000000000000000000000";
        assert_eq!(count(ten_to_30), Some(u32::MAX));
        assert_eq!(count(&ten_to_30.repeat(3)), Some(u32::MAX));
        assert_eq!(count("-1"), Some(u32::MAX));
        assert_eq!(count("16385"), Some(16_385));
        assert_eq!(corner("2147483648"), Some(i32::MAX));
        assert_eq!(corner("-2147483649"), Some(i32::MIN));
        assert_eq!(corner(&format!("-{}", ten_to_30.repeat(2))), Some(i32::MIN));
        assert_eq!(corner("-1048576"), Some(-1_048_576));
        for wrong in ["", "-", "1.0", "1e3", " 1", "x"] {
            assert_eq!(whole(wrong), None, "{wrong:?}");
        }
    }

    #[test]
    fn digits_are_grouped_by_three() {
        assert_eq!(grouped(0), "0");
        assert_eq!(grouped(999), "999");
        assert_eq!(grouped(1_000), "1,000");
        assert_eq!(grouped(1_179_648), "1,179,648");
    }
}
