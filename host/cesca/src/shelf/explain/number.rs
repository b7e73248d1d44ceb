//! Numbers as they stand in a shelf file: groups of seven bits, the lowest first, the top bit set
//! on all but the last.

/// The most groups of a number whose value is told: as many as 64 bits have room for.
const MOST_VALUED: usize = 9;

/// The most groups that are shown of a longer number, beside its last.
const MOST_SHOWN: usize = 7;

/// The numbers of a file, each as its groups; the last may be cut off.
pub fn numbers(file: &[u8]) -> impl Iterator<Item = &[u8]> {
    file.split_inclusive(|byte| *byte < 128)
}

/// The value of a number, if it has few enough groups.
pub fn value(groups: &[u8]) -> Option<u64> {
    let add = |value: u64, group: &u8| value * 128 + u64::from(group % 128);
    (groups.len() <= MOST_VALUED).then(|| groups.iter().rev().fold(0, add))
}

/// The groups in hexadecimal, `..` standing for the middle of a long row, whose length is then
/// told.
pub fn shown(groups: &[u8]) -> String {
    let hexadecimal = |groups: &[u8]| {
        let digits: Vec<String> = groups.iter().map(|group| format!("{group:02X}")).collect();
        digits.join(" ")
    };
    match groups {
        [first @ .., last] if first.len() > MOST_SHOWN => {
            let (first, number) = (hexadecimal(&first[..MOST_SHOWN]), groups.len());
            format!("{first} .. {last:02X}, {number} groups")
        }
        _ => hexadecimal(groups),
    }
}

#[cfg(test)]
mod tests {
    use super::*;

    #[test]
    fn a_file_is_cut_into_numbers() {
        let found: Vec<&[u8]> = numbers(&[0, 0x80, 0x80, 2, 127, 0xFF, 0]).collect();
        assert_eq!(found, [&[0][..], &[0x80, 0x80, 2], &[127], &[0xFF, 0]]);
        let found: Vec<&[u8]> = numbers(&[5, 0x80, 0xFF]).collect();
        assert_eq!(found, [&[5][..], &[0x80, 0xFF]]);
        assert_eq!(numbers(&[]).next(), None);
    }

    #[test]
    fn values_have_the_lowest_group_first() {
        assert_eq!(value(&[127]), Some(127));
        assert_eq!(value(&[0x80, 2]), Some(256));
        assert_eq!(value(&[0x81, 0x82, 3]), Some(1 + 2 * 128 + 3 * 16_384));
        let nine = [[0xFF; 8].as_slice(), &[0x7F]].concat();
        assert_eq!(value(&nine), Some((1 << 63) - 1));
        assert_eq!(value(&[0x80; 10]), None);
        assert_eq!(value(&vec![0xFF; 1_000_000]), None);
    }

    #[test]
    fn long_numbers_are_shown_in_part() {
        assert_eq!(shown(&[0x80, 0]), "80 00");
        assert_eq!(shown(&[0xC8, 1, 2, 3, 4, 5, 6, 7]), "C8 01 02 03 04 05 06 07");
        let long = [[0xFF; 10].as_slice(), &[0]].concat();
        assert_eq!(shown(&long), "FF FF FF FF FF FF FF .. 00, 11 groups");
    }
}
