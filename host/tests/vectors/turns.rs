//! Turns round the seats of a room: the call of request 5.

use crate::blocks::Block;
use crate::file::Outcome;
use crate::rooms::{left, lent, LEFT, LENT};
use crate::turners::TURNERS;
use crate::values::number;

/// What a case tells of a turn's answer: the seat that ran and the seat after it, none if no seat
/// could go on, or the number of what is wrong.
type Told = Result<Option<(usize, usize)>, u8>;

/// Whether all turns of both, each on what the one before left, answer what the case says, and
/// leave what it says after the last.
pub fn turns(block: &Block) -> Outcome {
    block.expect_keys(&[&LENT[..], &LEFT, &["state", "turn"]].concat())?;
    let before = lent(block)?;
    let lines = block.values("turn")?.into_iter().map(line);
    let lines: Vec<(usize, u32, Told)> = lines.collect::<Result<_, String>>()?;
    let ran = lines.iter().any(|(.., told)| matches!(told, Ok(Some(_))));
    let wanted = left(block, &before, ran)?;
    if lines.is_empty() {
        return Err("no turn".to_string());
    }
    for (name, turner) in TURNERS {
        let mut room = before.clone();
        for (at, (from, slice, told)) in (1..).zip(&lines) {
            let (answer, after) = room.turned(turner, *slice, *from);
            let found = answer.map(|turn| turn.map(|turn| (turn.seat, turn.next)));
            if found != *told {
                return Err(format!("{name} answers {found:?} in turn {at}, wanted {told:?}"));
            }
            room = after;
        }
        if room != wanted {
            return Err(format!("{name} leaves {}", room.differences(&wanted)));
        }
    }
    Ok(())
}

/// The given seat and the slice of a turn, and what is told of its answer.
fn line(value: &str) -> Result<(usize, u32, Told), String> {
    let unknown = || format!("{value:?} is no turn");
    let (call, answer) = value.split_once(" : ").ok_or_else(unknown)?;
    let (from, slice) = call.split_once(' ').ok_or_else(unknown)?;
    let told = match answer.split(' ').collect::<Vec<&str>>()[..] {
        ["nobody"] => Ok(None),
        ["refused", ground] => Err(number(ground)?),
        ["ran", seat, "next", next] => Ok(Some((number(seat)?, number(next)?))),
        _ => return Err(unknown()),
    };
    Ok((number(from)?, number(slice)?, told))
}

#[cfg(test)]
mod tests {
    use crate::file::{expect_wrong, only};

    /// Two seats in turn: push R1, mov [5], R1, mov LCD, R1 and jmp 0 at both, with 7 in R1 of the
    /// first and 9 in R1 of the second, which has no roll.
    const TURNS: &str = "case: a\ncall: turns\nseats: 2\nop: 5D55E9A0+00*252+5D55E9A0+00*252\n\
        arg: 0005+00*254+0005+00*254\ndata: 11*512\nstack: 22*512\nkeys: -\nkey-lengths: 0,0\n\
        rolls: 3*3\nroll-lengths: 3,0\nroll-positions: 1,0\n\
        state: 0 7 0 0 0 255 0 0 0 - 0 0 0\nstate: 0 9 0 0 0 255 0 0 0 - 0 0 0\n\
        turn: 4 4 : ran 0 next 1\nturn: 1 9 : ran 1 next 0\nturn: 1 1 : ran 0 next 1\n\
        turn: 0 0 : refused 29\n\
        state-after: 0 7 0 0 1 253 0 0 0 - 0 0 0\nstate-after: 0 9 0 0 2 254 0 0 0 - 0 0 0\n\
        data-after: 11*5+07+11*255+09+11*250\nstack-after: 22*253+070722+22*254+0922\n\
        rolls-after: 3,7,3\nroll-positions-after: 2,0";

    /// A case of one halted seat.
    const NOBODY: &str = "case: a\ncall: turns\nseats: 1\nop: 00*256\narg: 00*256\ndata: 00*256\n\
        stack: 00*256\nkeys: 0102\nkey-lengths: 2\nrolls: -\nroll-lengths: 0\nroll-positions: 0\n\
        state: 0 0 0 0 0 255 0 0 0 - 0 1 2\nturn: 0 1 : nobody\n\
        turn: 18446744073709551615 9 : nobody";

    #[test]
    fn turns_that_hold() {
        assert_eq!(only("a.txt", TURNS), Ok(()));
        assert_eq!(only("a.txt", NOBODY), Ok(()));
    }

    #[test]
    fn refused_turns_that_hold() {
        for (from, to, number) in [
            ("seats: 1", "seats: 9", 28),
            ("seats: 1", "seats: 0", 28),
            ("turn: 0 1 :", "turn: 0 1001 :", 29),
            ("data: 00*256", "data: 00*255", 17),
            ("key-lengths: 2", "key-lengths: 3", 17),
            ("rolls: -", "rolls: 5", 17),
            ("0 1 2\nturn", "0 1 3\nturn", 18),
            ("positions: 0", "positions: 1", 18),
        ] {
            let (lent, _) = NOBODY.split_once("\nturn: 18").expect("a second turn");
            let case = lent.replacen(from, to, 1);
            assert_ne!(case, lent, "{from:?}");
            let refused = case.replacen("nobody", &format!("refused {number}"), 1);
            assert_eq!(only("a.txt", &refused), Ok(()), "{to}");
            assert!(only("a.txt", &case).is_err(), "{to}");
            assert!(only("a.txt", &case.replacen("nobody", "refused 19", 1)).is_err(), "{to}");
        }
    }

    #[test]
    fn answers_that_do_not_hold() {
        let wrong = |from, to| expect_wrong(TURNS, from, to);
        wrong("4 4 : ran 0 next 1", "4 4 : ran 1 next 0");
        wrong("4 4 : ran 0 next 1", "4 4 : ran 0 next 0");
        wrong("4 4 : ran 0 next 1", "4 4 : nobody");
        wrong("4 4 : ran 0 next 1", "5 4 : ran 0 next 1");
        wrong("4 4 : ran 0 next 1", "4 3 : ran 0 next 1");
        wrong("1 1 : ran 0 next 1", "1 1 : ran 1 next 0");
        wrong("refused 29", "refused 28");
        wrong("refused 29", "nobody");
        wrong("0 0 : refused 29", "0 1 : refused 29");
        wrong("\nturn: 0 0 : refused 29", "\nturn: 0 0: refused 29");
        wrong("ran 0 next 1", "ran 0, next 1");
        wrong("ran 0 next 1", "ran 0 next 1 ");
        expect_wrong(NOBODY, "\nturn: 0 1 : nobody\nturn: 18446744073709551615 9 : nobody", "");
        expect_wrong(NOBODY, "1 : nobody", "1 : ran 0 next 0");
    }

    #[test]
    fn leavings_that_do_not_hold() {
        let wrong = |from, to| expect_wrong(TURNS, from, to);
        wrong("after: 0 7 0 0 1", "after: 0 7 0 0 2");
        wrong("after: 0 9 0 0 2", "after: 0 9 0 0 1");
        wrong("\nstate-after: 0 9 0 0 2 254 0 0 0 - 0 0 0", "");
        wrong("state-after: 0 9", "state-after: 0 7 0 0 1 253 0 0 0 - 0 0 0\nstate-after: 0 9");
        wrong("data-after: 11*5+07", "data-after: 11*5+08");
        wrong("\ndata-after: 11*5+07+11*255+09+11*250", "");
        wrong("stack-after: 22*253", "stack-after: 23+22*252");
        wrong("22*254+0922\n", "22*254+0922+00\n");
        wrong("rolls-after: 3,7,3", "rolls-after: 7,3,3");
        wrong("\nrolls-after: 3,7,3", "");
        wrong("positions-after: 2,0", "positions-after: 1,0");
        wrong("positions-after: 2,0", "positions-after: 2,0,0");
        wrong("\nroll-positions-after: 2,0", "");
        wrong("\nrolls-after", "\nroll-after");
        wrong("\nrolls-after", "\nkeys-after: -\nrolls-after");
        expect_wrong(NOBODY, "\nturn", "\nstate-after: 0 0 0 0 0 255 0 0 0 - 0 1 2\nturn");
        expect_wrong(NOBODY, "\nturn", "\nroll-positions-after: 0\nturn");
    }

    #[test]
    fn what_is_lent_is_told_for_each_seat() {
        let wrong = |from, to| expect_wrong(TURNS, from, to);
        wrong("seats: 2", "seats: 1");
        wrong("seats: 2", "seats: 3");
        wrong("seats: 2", "seats: 2\nseats: 2");
        wrong("key-lengths: 0,0", "key-lengths: 0");
        wrong("roll-lengths: 3,0", "roll-lengths: 3,0,0");
        wrong("roll-positions: 1,0", "roll-positions: 1");
        wrong("\nroll-positions: 1,0", "");
        wrong("\nkeys: -", "");
        wrong("\nstate: 0 9 0 0 0 255 0 0 0 - 0 0 0", "");
    }
}
