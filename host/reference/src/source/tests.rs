use super::*;

/// The words that a text is assembled to, or number and line of what is wrong.
fn assembled(text: &str) -> Result<Vec<[u8; 2]>, (u8, usize)> {
    let (mut opcodes, mut arguments) = ([7; BANK], [7; BANK]);
    let words = assemble(text.as_bytes(), &mut opcodes, &mut arguments);
    let banks = opcodes.into_iter().zip(arguments).map(<[u8; 2]>::from);
    let banks: Vec<[u8; 2]> = banks.collect();
    match words {
        Ok(words) => assert!(banks[words..].iter().all(|word| *word == [0, 0]), "{text}"),
        Err(_) => assert!(banks.iter().all(|word| *word == [7, 7]), "{text}"),
    }
    words.map(|words| banks[..words].to_vec())
}

#[test]
fn listing_a() {
    let text = "mov R0, 5\ncall bump\nmov OUT, R0\nhlt\nbump: push R2\ninc R0\npop R2\nret\n";
    let a = crate::Listing::a();
    let words = a.opcodes.into_iter().zip(a.arguments).map(<[u8; 2]>::from).take(8).collect();
    assert_eq!(assembled(text), Ok(words));
}

#[test]
fn every_printed_word_is_read_again() {
    let fields = |word| Fields::from(Instruction::decode(word));
    for word in (0..=u16::MAX).map(u16::to_be_bytes) {
        let text = print(fields(word)).expect("a decoded form");
        let words = assembled(&text).expect("a printed form");
        assert_eq!(words.len(), 1, "{text}");
        assert_eq!(print(fields(words[0])), Ok(text), "word {word:02X?}");
    }
}

#[test]
fn bad_fields_have_no_text() {
    let alu = Fields::default();
    assert_eq!(print(Fields { f: 16, ..alu }), Err(23));
    assert_eq!(print(Fields { f: 16, d: 4, ..alu }), Err(22));
    assert_eq!(print(Fields { f: 7, b: 4, ..alu }), Err(22)); // not R0, R0 hides Rb
    assert_eq!(print(Fields { form: 38, d: 4, a: 4, f: 16, b: 4, imm: 4 }), Ok("hlt".to_string()));
}

#[test]
fn ends_of_lines() {
    assert_eq!(assembled(""), Ok(vec![]));
    assert_eq!(assembled("hlt"), Ok(vec![[0xF8, 0]]));
    assert_eq!(assembled("hlt\n"), Ok(vec![[0xF8, 0]]));
    assert_eq!(assembled("\n"), Err((24, 1)));
    assert_eq!(assembled("hlt\n\n"), Err((24, 2)));
    assert_eq!(assembled("hlt\r\n"), Err((24, 1)));
}

#[test]
fn labels_are_filled_in() {
    let text = "a: jmp b\nb: mov R1, [a]\nIN: jmp IN\nc: jgt R1, 9, c\nmov [c], R2";
    let words = [[0xA0, 1], [0x64, 0], [0xA0, 2], [0x25, 9], [0xDC, 6], [0xA0, 3], [0x56, 3]];
    assert_eq!(assembled(text), Ok(words.to_vec()));
}

#[test]
fn missing_and_repeated_labels() {
    assert_eq!(assembled("jmp a\na: nop\na: nop"), Err((25, 3)));
    assert_eq!(assembled("a: nop\na: nop\njmp b"), Err((25, 2)));
    assert_eq!(assembled("nop\njmp b\na: nop\na: nop"), Err((25, 2)));
    assert_eq!(assembled("a: nop\na: nop\na: nop"), Err((25, 2)));
    assert_eq!(assembled("jmp A\na: nop\nno"), Err((24, 3)));
}

#[test]
fn words_that_fit() {
    let text = |nops: usize, last: &str| "nop\n".repeat(nops) + last;
    assert_eq!(assembled(&text(256, "")).map(|words| words.len()), Ok(256));
    assert_eq!(assembled(&text(257, "")), Err((26, 0)));
    assert_eq!(assembled(&text(300, "jmp a")), Err((25, 301)));
    assert_eq!(assembled(&text(300, "jmp")), Err((24, 301)));
    let words = assembled(&text(253, "jge R0, 1, 2")).expect("256 words");
    assert_eq!(words[253..], [[0x24, 1], [0xD8, 0], [0xA0, 2]]);
    assert_eq!(assembled(&text(254, "jge R0, 1, 2")), Err((26, 0)));
}

#[test]
fn banks_come_first() {
    let mut bank = [7; BANK];
    for length in [0, 255] {
        let mut other = vec![7; length];
        for text in ["no", "jmp a", ""] {
            assert_eq!(assemble(text.as_bytes(), &mut bank, &mut other), Err((1, 0)));
            assert_eq!(assemble(text.as_bytes(), &mut other, &mut bank), Err((1, 0)));
        }
        assert_eq!((bank, other), ([7; BANK], vec![7; length]));
    }
}
