//! Keys as they are typed behind `--keys`.

/// The keys of a list, or what is wrong with it.
pub fn keys(list: &str) -> Result<Vec<u8>, String> {
    let wrong = |word: &str| format!("{word:?} is no key: 0 to 255 or 0x00 to 0xFF, with commas");
    list.split(',').map(|word| key(word).ok_or_else(|| wrong(word))).collect()
}

/// The key of a word, decimal or hexadecimal.
fn key(word: &str) -> Option<u8> {
    let (digits, radix) = word.strip_prefix("0x").map_or((word, 10), |digits| (digits, 16));
    // Read by itself, a sign would pass for a digit.
    let plain = digits.chars().all(|digit| digit.is_digit(radix));
    u8::from_str_radix(digits, radix).ok().filter(|_| plain)
}

#[cfg(test)]
mod tests {
    use super::*;

    #[test]
    fn decimal_and_hexadecimal() {
        assert_eq!(keys("7"), Ok(vec![7]));
        assert_eq!(keys("1,2,3"), Ok(vec![1, 2, 3]));
        assert_eq!(keys("0,255,0x00,0xff,0xFF,0x1C,0xA"), Ok(vec![0, 255, 0, 255, 255, 28, 10]));
    }

    #[test]
    fn words_that_are_no_keys() {
        for word in ["", "256", "0x100", "0x", "+5", "-5", "0x+5", "x1C", "1C", "0X1C", " 1", "a"] {
            let wrong = format!("{word:?} is no key: 0 to 255 or 0x00 to 0xFF, with commas");
            assert_eq!(keys(word), Err(wrong.clone()));
            assert_eq!(keys(&format!("1,{word},2")), Err(wrong));
        }
    }
}
