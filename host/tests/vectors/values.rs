//! Values as the cases spell them.

use cesca::{Flags, Overflow, State};

/// The bytes of pieces joined by `+`: hexadecimal, and `*` with how often it stands; `-` is none.
pub fn bytes(value: &str) -> Result<Vec<u8>, String> {
    if value == "-" {
        return Ok(Vec::new());
    }
    let pieces = value.split('+').map(|piece| {
        let (digits, times) = piece.split_once('*').unwrap_or((piece, "1"));
        let times = times.parse().ok()?;
        Some(hexadecimal(digits)?.repeat(times))
    });
    let pieces: Option<Vec<Vec<u8>>> = pieces.collect();
    pieces.map(|pieces| pieces.concat()).ok_or_else(|| format!("{value:?} are no bytes"))
}

/// The bytes with these hexadecimal digits, at least one.
fn hexadecimal(digits: &str) -> Option<Vec<u8>> {
    let whole = !digits.is_empty() && digits.bytes().all(|digit| digit.is_ascii_hexdigit());
    let pairs = digits.as_bytes().chunks(2).map(|pair| match pair {
        [_, _] if whole => u8::from_str_radix(str::from_utf8(pair).ok()?, 16).ok(),
        _ => None,
    });
    pairs.collect::<Option<Vec<u8>>>().filter(|_| whole)
}

/// The text in which `\n` is a line feed, `\\` a backslash, and `\xHH` any other byte.
pub fn text(value: &str) -> Result<Vec<u8>, String> {
    let mut text = Vec::new();
    let mut rest = value;
    while let Some((plain, escape)) = rest.split_once('\\') {
        text.extend(plain.bytes());
        let (byte, length) = escaped(escape).ok_or_else(|| format!("{value:?} is no text"))?;
        text.push(byte);
        rest = &escape[length..];
    }
    text.extend(rest.bytes());
    Ok(text)
}

/// The byte that stands behind a backslash, and the letters that it takes.
fn escaped(escape: &str) -> Option<(u8, usize)> {
    match escape.bytes().next()? {
        b'n' => Some((b'\n', 1)),
        b'\\' => Some((b'\\', 1)),
        b'x' => Some((*hexadecimal(escape.get(1..3)?)?.first()?, 3)),
        _ => None,
    }
}

/// The decimal number with these digits.
pub fn number<T: std::str::FromStr>(value: &str) -> Result<T, String> {
    value.parse().map_err(|_| format!("{value:?} is no such number"))
}

/// The decimal numbers joined by commas, `7*3` standing for three of them; `-` is none.
pub fn numbers<T: Clone + std::str::FromStr>(value: &str) -> Result<Vec<T>, String> {
    if value == "-" {
        return Ok(Vec::new());
    }
    let pieces = value.split(',').map(|piece| {
        let (digits, times) = piece.split_once('*').unwrap_or((piece, "1"));
        Ok(vec![number(digits)?; number(times)?])
    });
    pieces.collect::<Result<Vec<Vec<T>>, String>>().map(|pieces| pieces.concat())
}

/// The state with these numbers: the registers, PC, SP and OUT, the flags Z, C, V and S, whether it
/// is halted, the position. V is `-` where it is unsettled.
pub fn state(value: &str) -> Result<State, String> {
    let parts: Vec<&str> = value.split(' ').collect();
    let [r0, r1, r2, r3, pc, sp, out, z, c, v, s, halted, position] = parts[..] else {
        return Err(format!("{value:?} is no state"));
    };
    let v = match v {
        "-" => Overflow::Unsettled,
        _ if flag(v)? => Overflow::Set,
        _ => Overflow::Clear,
    };
    Ok(State {
        regs: [number(r0)?, number(r1)?, number(r2)?, number(r3)?],
        pc: number(pc)?,
        sp: number(sp)?,
        out: number(out)?,
        flags: Flags { z: flag(z)?, c: flag(c)?, s: flag(s)?, v },
        halted: flag(halted)?,
        position: number(position)?,
    })
}

/// Whether a flag is 1.
pub fn flag(value: &str) -> Result<bool, String> {
    match value {
        "0" => Ok(false),
        "1" => Ok(true),
        _ => Err(format!("{value:?} is no flag")),
    }
}

#[cfg(test)]
mod tests {
    use super::*;

    #[test]
    fn bytes_are_repeated_and_joined() {
        assert_eq!(bytes("3005+00*3"), Ok(vec![0x30, 5, 0, 0, 0]));
        assert_eq!(bytes("0080*2"), Ok(vec![0, 0x80, 0, 0x80]));
        assert_eq!(bytes("aF"), Ok(vec![0xAF]));
        assert_eq!(bytes("-"), Ok(vec![]));
        for wrong in ["", "3", "300", "0x", "30+", "30*", "30*x", "+3", "-1", "30-", "é0"] {
            assert!(bytes(wrong).is_err(), "{wrong}");
        }
    }

    #[test]
    fn texts_are_read() {
        assert_eq!(text("a\\nb\\\\n\\x0D\\xfF"), Ok(b"a\nb\\n\r\xFF".to_vec()));
        assert_eq!(text(""), Ok(vec![]));
        for wrong in ["\\", "\\x", "\\x0", "\\xG0", "\\t", "\\xé"] {
            assert!(text(wrong).is_err(), "{wrong}");
        }
    }

    #[test]
    fn numbers_are_repeated_and_joined() {
        assert_eq!(numbers("1,0*3,4294967295"), Ok(vec![1, 0, 0, 0, u32::MAX]));
        assert_eq!(numbers::<u16>("-"), Ok(vec![]));
        for wrong in ["", "1,", "1*", "1*x", "65536", "-1", "1 2", "1*2*3"] {
            assert!(numbers::<u16>(wrong).is_err(), "{wrong}");
        }
    }

    #[test]
    fn states_are_read() {
        let start = State::start();
        assert_eq!(state("0 0 0 0 0 255 0 0 0 - 0 0 0"), Ok(start));
        let flags = Flags { z: true, c: false, s: false, v: Overflow::Set };
        let other =
            State { regs: [1, 2, 3, 4], pc: 5, sp: 6, out: 7, flags, halted: true, ..start };
        assert_eq!(state("1 2 3 4 5 6 7 1 0 1 0 1 8"), Ok(State { position: 8, ..other }));
        let flags = Flags { z: false, c: true, s: true, v: Overflow::Clear };
        assert_eq!(state("0 0 0 0 0 255 0 0 1 0 1 0 0"), Ok(State { flags, ..start }));
        for wrong in ["", "0 0 0 0 0 255 0 0 0 - 0 0", "0 0 0 0 0 255 0 - 0 0 0 0 0", "-"] {
            assert!(state(wrong).is_err(), "{wrong}");
        }
    }
}
