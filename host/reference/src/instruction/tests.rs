//! Words worked out by hand from the document's table.

use super::*;

/// An instruction with R0, function 0 and 0 in all its fields.
fn plain(form: Form) -> Instruction {
    Fields { form: form.row(), ..Fields::default() }.into()
}

/// Checks that a word without free bits and an instruction stand for each other.
fn check(word: [u8; 2], instruction: Instruction) {
    assert_eq!(Instruction::decode(word), instruction, "word {word:02X?}");
    assert_eq!(instruction.encode(), Ok(word), "{instruction:?}");
}

/// Checks a form whose only fields are Rd and an immediate value or address.
fn check_d(word: [u8; 2], form: Form, d: u8) {
    let imm = word[1];
    check(word, Instruction { d, imm, ..plain(form) });
}

/// Checks a form whose only fields are Ra and an immediate value or address.
fn check_a(word: [u8; 2], form: Form, a: u8) {
    let imm = word[1];
    check(word, Instruction { a, imm, ..plain(form) });
}

#[test]
fn listing_a() {
    check_d([0x30, 0x05], Form::MovImm, 0); // mov R0, 5
    check_d([0xA8, 0x04], Form::Call, 0); // call 4
    check_a([0xF0, 0x00], Form::OutReg, 0); // mov OUT, R0
    check_d([0xF8, 0x00], Form::Hlt, 0); // hlt
    check_a([0x5E, 0x00], Form::Push, 2); // push R2
    check_a([0x10, 0x01], Form::AddImm, 0); // add R0, R0, 1
    check_d([0x88, 0x00], Form::Pop, 2); // pop R2
    check_d([0xAC, 0x00], Form::Ret, 0); // ret
}

#[test]
fn alu_forms() {
    let fields = |form, d, a, f, b| Instruction { d, a, f, b, ..plain(form) };
    check([0x0D, 0x22], fields(Form::Alu, 3, 1, 2, 2)); // sub R3, R1, R2
    check([0x06, 0x73], fields(Form::Alu, 1, 2, 7, 3)); // not R1, R2 beside R3
    check([0x22, 0x21], fields(Form::AluNone, 0, 2, 2, 1)); // sub NONE, R2, R1
    let dec = Instruction { d: 1, a: 2, imm: 255, ..plain(Form::AddImm) };
    check([0x16, 0xFF], dec); // add R1, R2, 255
    check_a([0x27, 0x10], Form::CmpImm, 3); // cmp R3, 0x10
    check_a([0x29, 0xF0], Form::MaskImm, 1); // mask R1, 0xF0
    check_d([0x2C, 0x80], Form::MaskIn, 0); // mask IN, 0x80
}

#[test]
fn memory_forms() {
    check_d([0x3C, 0xFF], Form::MovImm, 3); // mov R3, 0xFF
    check_d([0x48, 0x00], Form::MovIn, 2); // mov R2, IN
    check_d([0x50, 0x00], Form::Ack, 0); // mov IN, Ack
    check_a([0x57, 0x40], Form::Store, 3); // mov [0x40], R3
    let store_at = Instruction { a: 1, b: 3, ..plain(Form::StoreAt) };
    check([0x59, 0x03], store_at); // mov [R3], R1
    check_d([0x64, 0x7F], Form::Load, 1); // mov R1, [0x7F]
    let load_at = Instruction { d: 2, a: 1, ..plain(Form::LoadAt) };
    check([0x79, 0x00], load_at); // mov R2, [R1]
    let swap = Instruction { d: 1, a: 3, ..plain(Form::Swap) };
    check([0x97, 0x00], swap); // swap R1, R3
}

#[test]
fn jumps() {
    check_d([0xA0, 0x12], Form::Jmp, 0);
    check_a([0xA6, 0x00], Form::JmpReg, 2);
    check_d([0xB0, 0x01], Form::Jz, 0);
    check_d([0xB4, 0x02], Form::Jnz, 0);
    check_d([0xB8, 0x03], Form::Jc, 0);
    check_d([0xBC, 0x04], Form::Jnc, 0);
    check_d([0xC0, 0x05], Form::Jv, 0);
    check_d([0xC4, 0x06], Form::Jnv, 0);
    check_d([0xC8, 0x07], Form::Jlz, 0);
    check_d([0xCC, 0x08], Form::Jp, 0);
    check_d([0xD0, 0x09], Form::Jgz, 0);
    check_d([0xD4, 0x0A], Form::Jleu, 0);
    check_d([0xD8, 0x0B], Form::Jlt, 0);
    check_d([0xDC, 0xFF], Form::Jle, 0);
}

#[test]
fn output_forms() {
    check_d([0xE0, 0x38], Form::LcdCommand, 0); // mov LCDcmd, 0x38
    check_d([0xE4, 0x41], Form::LcdImm, 0); // mov LCD, 0x41
    check_a([0xEA, 0x00], Form::LcdReg, 2); // mov LCD, R2
    check_d([0xEC, 0x10], Form::LcdLoad, 0); // mov LCD, [0x10]
    check_a([0xF3, 0x00], Form::OutReg, 3); // mov OUT, R3
    check_d([0xF4, 0x20], Form::OutLoad, 0); // mov OUT, [0x20]
    check_d([0xFC, 0x00], Form::Nop, 0); // nop
}

#[test]
fn free_bits_are_read_past() {
    let pairs = [
        ([0x0F, 0xFF], [0x0F, 0xF3]), // rol R3, R3 beside R3
        ([0x33, 0x12], [0x30, 0x12]), // mov R0, 0x12
        ([0x4B, 0xAA], [0x48, 0x00]), // mov R2, IN
        ([0x5B, 0xFF], [0x5B, 0x03]), // mov [R3], R3
        ([0x8D, 0x01], [0x8C, 0x00]), // pop R3
        ([0xAB, 0x80], [0xA8, 0x80]), // call 0x80
        ([0xF0, 0x7E], [0xF0, 0x00]), // mov OUT, R0
        ([0xFF, 0xFF], [0xFC, 0x00]), // nop
    ];
    for (word, clean) in pairs {
        let instruction = Instruction::decode(word);
        assert_eq!(instruction, Instruction::decode(clean), "word {word:02X?}");
        assert_eq!(instruction.encode(), Ok(clean), "word {word:02X?}");
    }
}

#[test]
fn bad_numbers_are_refused_registers_first() {
    let bad = |form, d, a, f, b| Instruction { d, a, f, b, ..plain(form) }.encode();
    assert_eq!(bad(Form::Alu, 4, 0, 0, 0), Err(Refusal::of_call(22)));
    assert_eq!(bad(Form::Alu, 0, 255, 0, 0), Err(Refusal::of_call(22)));
    assert_eq!(bad(Form::Alu, 0, 0, 7, 4), Err(Refusal::of_call(22))); // not R0, R0 hides Rb
    assert_eq!(bad(Form::Alu, 0, 0, 16, 4), Err(Refusal::of_call(22)));
    assert_eq!(bad(Form::Alu, 3, 3, 16, 3), Err(Refusal::of_call(23)));
    assert_eq!(bad(Form::AluNone, 0, 0, 255, 0), Err(Refusal::of_call(23)));
    assert_eq!(bad(Form::StoreAt, 0, 0, 0, 4), Err(Refusal::of_call(22)));
}

#[test]
fn fields_of_other_forms_are_ignored() {
    let full = |form| Instruction { form, d: 9, a: 9, f: 99, b: 9, imm: 9 };
    assert_eq!(full(Form::Hlt).encode(), Ok([0xF8, 0x00]));
    assert_eq!(full(Form::Call).encode(), Ok([0xA8, 0x09]));
    assert_eq!(full(Form::Hlt).trimmed(), plain(Form::Hlt));
    let none = Instruction { a: 1, f: 1, b: 1, ..full(Form::AluNone) };
    assert_eq!(none.encode(), Ok([0x21, 0x11]));
}

#[test]
fn put_changes_one_place_or_nothing() {
    let push = Instruction { a: 2, ..plain(Form::Push) };
    let (mut opcodes, mut arguments) = ([7; BANK], [7; BANK]);
    let (mut wanted_opcodes, mut wanted_arguments) = ([7; BANK], [7; BANK]);
    (wanted_opcodes[9], wanted_arguments[9]) = (0x5E, 0);
    assert_eq!(push.put(&mut opcodes, &mut arguments, 9), Ok(()));
    assert_eq!((opcodes, arguments), (wanted_opcodes, wanted_arguments));

    let bad = Instruction { a: 4, ..push };
    let short = &mut arguments[1..];
    assert_eq!(bad.put(&mut opcodes, short, 9), Err(Refusal::of_call(1)));
    assert_eq!(bad.put(&mut opcodes, &mut arguments, 9), Err(Refusal::of_call(22)));
    assert_eq!((opcodes, arguments), (wanted_opcodes, wanted_arguments));
}
