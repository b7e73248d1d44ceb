//! Every explanation of a line that is no instruction or macro.

use super::check;

/// Checks what is wrong with a line behind another, with the line as it is quoted.
fn check_quoted(line: &str, quoted: &str, flaw: &str) {
    let told = format!("24 at line 2: \"{quoted}\" is no instruction or macro: {flaw}");
    check(&format!("hlt\n{line}\nhlt\n"), &told);
    check(&format!("hlt\n{line}\n"), &told);
}

/// The same for a line that is quoted as it is.
fn check_line(line: &str, flaw: &str) {
    check_quoted(line, line, flaw);
}

#[test]
fn lines_without_an_instruction() {
    check_line("", "the line is empty");
    check("\n", "24 at line 1: \"\" is no instruction or macro: the line is empty");
    check_line("loop:", "no instruction follows the label");
    check_line("loop: ", "it ends in a space");
}

#[test]
fn comments() {
    let wrong = |mark: &str| format!("{mark:?} begins no comment here: a text has none");
    check_line("; doubles R0", &wrong(";"));
    check_line("# doubles R0", &wrong("#"));
    check_line("// doubles R0", &wrong("//"));
    check_line("hlt ; done", &wrong(";"));
    check_line("hlt  // done", &wrong("//"));
    check_line("hlt // step #5", &wrong("//"));
    check_line("hlt # 5", &wrong("#"));
    check_line("#5 doubles R0", &wrong("#"));
}

#[test]
fn a_sign_before_a_number_is_no_comment() {
    let sign = "a number has no \"#\" before it here";
    check_line("mov R0, #5", sign);
    check_line("mov R0, [#0x1C]", sign);
    check_line("mov R0, #5 ; five", sign);
}

#[test]
fn bytes_that_are_not_printable() {
    check_quoted("mov\tR0, 5", "mov\\tR0, 5", "it has a tab in column 4");
    check_quoted("hlt\r", "hlt\\r", "it has a carriage return in column 4");
    check_quoted("mov R0, 5\0", "mov R0, 5\\x00", "it has the byte 0x00 in column 10");
    check_quoted("\x7Fhlt", "\\x7fhlt", "it has the byte 0x7F in column 1");
    check_quoted("é: hlt", "\\xc3\\xa9: hlt", "it has a byte outside ASCII in column 1");
    check_quoted("mov R0, ٣", "mov R0, \\xd9\\xa3", "it has a byte outside ASCII in column 9");
}

#[test]
fn spaces() {
    check_line(" hlt", "it begins with a space");
    check_line(" ", "it begins with a space");
    check_line("hlt ", "it ends in a space");
    check_line("mov R0, ", "it ends in a space");
    check_line("mov  R0, 5", "it has two spaces in column 4");
    check_line("mov R0,  5", "it has two spaces in column 8");
    check_line("loop:  hlt", "it has two spaces in column 6");
}

#[test]
fn labels_that_are_given() {
    check_line(": hlt", "no label stands before the colon");
    check_line("loop:hlt", "no space follows the colon");
    check_line("a: b: hlt", "it has two colons, and a line has one label at most");
    let letters = |name: &str| format!("{name} is no label: a label has letters alone");
    check_line("loop1: hlt", &letters("loop1"));
    check_line("1: hlt", &letters("1"));
    check_line("a_b: hlt", &letters("\"a_b\""));
    check_line("jmp 3:", &letters("\"jmp 3\""));
    let long = "\"abcdefghijklm\" has 13 letters: a label has 12 at most";
    check_line("abcdefghijklm: hlt", long);
    check_line("jmp abcdefghijklm", long);
    check_line("mov [abcdefghijklm], R0", long);
    check_line("jmp loop1", &letters("loop1"));
    check_line("mov R0, [loop1]", &letters("loop1"));
    check_line("jgtu R0, 5, loop1", &letters("loop1"));
}

#[test]
fn labels_where_none_may_stand() {
    check_line("push X1", "X1 stands where a register is due");
    check_line("jgt R0, loop1, 5", "loop1 stands where a register or a number is due");
    check_line("mov IN, [loop1]", "[loop1] stands where Ack is due");
    let due = "stands where a register, a number, IN, an address in brackets or a register in \
               brackets is due";
    check_line("mov R0, longlonglonglong", &format!("\"longlonglonglong\" {due}"));
    check_line("mov R0, loop1", &format!("loop1 {due}"));
}

#[test]
fn mnemonics() {
    check_line("halt", "there is no mnemonic \"halt\"");
    check_line("movR0, 5", "there is no mnemonic \"movR0,\"");
    check_line("loop: sum R0, R1", "there is no mnemonic \"sum\"");
    check_line("skip(1)", "there is no mnemonic \"skip(1)\"");
    check_line("HLT", "the mnemonic is spelled hlt");
    check_line("Mov R0, 5", "the mnemonic is spelled mov");
    check_line("JGEU R0, R1, 3", "the mnemonic is spelled jgeu");
    check_line("HALT", "there is no mnemonic \"HALT\"");
}

#[test]
fn commas() {
    check_line("mov R0,5", "no space follows a comma");
    check_line("add R0, R0,R1", "no space follows a comma");
    check_line("mov R0 , 5", "a space stands before a comma");
    check_line("mov R0 5", "\"R0 5\" lacks a comma");
    check_line("mov R0 [5]", "\"R0 [5]\" lacks a comma");
    check_line("mov [5] R0", "\"[5] R0\" lacks a comma");
    check_line("add R0, R0 256", "\"R0 256\" lacks a comma");
    check_line("mov R0,", "an operand is missing beside a comma");
    check_line("mov , R0", "an operand is missing beside a comma");
    check_line("mov R0, , 5", "a space stands before a comma");
}

#[test]
fn numbers() {
    check_line("mov R0, 256", "256 is over 255");
    check_line("jmp 99999999999999999999", "99999999999999999999 is over 255");
    check_line("mov R0, 00", "00 has a leading zero");
    check_line("mov R0, 007", "007 has a leading zero");
    check_line("mov R0, 0x5", "0x5 is not 0x and two hexadecimal digits");
    check_line("mov R0, 0x100", "0x100 is not 0x and two hexadecimal digits");
    check_line("mov R0, 0x0G", "0x0G is not 0x and two hexadecimal digits");
    check_line("mov R0, 0X05", "0X05 is no number, decimal or with 0x");
    check_line("mov R0, 5h", "5h is no number, decimal or with 0x");
    check_line("add R0, R0, -1", "-1 is below 0");
    check_line("mov R0, [-1]", "[-1] is below 0");
    check_line("mov R0, +5", "+5 has a sign");
    check_line("mov LCD, 'A'", "\"'A'\" is no operand");
    check_line("jz skip(1)", "skip(1) is no operand");
}

#[test]
fn registers_and_brackets() {
    let none = |name: &str| format!("{name} is no register: there are R0, R1, R2 and R3");
    check_line("push R4", &none("R4"));
    check_line("mov R0, [R10]", &none("R10"));
    check_line("push r0", &none("r0"));
    check_line("jmp R4", &none("R4"));
    check_line("mov R0, [5", "[5 has one bracket without the other");
    check_line("mov R0, 5]", "5] has one bracket without the other");
    check_line("mov R0, [ 5 ]", "\"[ 5 ]\" has a space between its brackets");
    check_line("mov R0, []", "\"[]\" has nothing between its brackets");
    check_line("mov R0, [[5]]", "[[5]] is no operand");
}

#[test]
fn operands_of_every_mnemonic() {
    for (takes, mnemonics) in [
        ("no operand", "ret hlt nop"),
        (
            "1 operand, not 4",
            "push pop jmp call jz jnz jc jnc jv jnv jlz jp jgz jleu jlt jle test inc dec jeq jne \
             jltu",
        ),
        ("1 or 2 operands, not 4", "swap"),
        ("2 operands, not 4", "mov not sll srl sra rol cmp mask sllc"),
        ("3 operands, not 4", "add sub addc subb and or xor nand nor xnor jgtu jgeu jgt jge"),
    ] {
        for mnemonic in mnemonics.split(' ') {
            let flaw = format!("{mnemonic} takes {takes}");
            check_line(&format!("{mnemonic} R0, R0, R0, R0"), &flaw);
        }
    }
}

#[test]
fn operands_missing_and_too_many() {
    check_line("push", "push takes 1 operand, not 0");
    check_line("push R0, R1", "push takes 1 operand, not 2");
    check_line("hlt 5", "hlt takes no operand");
    check_line("ret R0, R1", "ret takes no operand");
    check_line("mov R0", "mov takes 2 operands, not 1");
    check_line("add R0, 5", "add takes 3 operands, not 2");
    check_line("not R0, R1, R2", "not takes 2 operands, not 3");
    check_line("swap R0, R1, R2", "swap takes 1 or 2 operands, not 3");
    check_line("jgtu R0, 5", "jgtu takes 3 operands, not 2");
    check_line("jeq R0, 5", "jeq takes 1 operand, not 2");
    check_line("hlt 256", "hlt takes no operand");
}

#[test]
fn operands_that_a_comma_would_make_too_many() {
    check_line("hlt now please", "hlt takes no operand");
    check_line("jmp loop end", "jmp takes 1 operand, not 2");
    check_line("mov R0, 5 6", "mov takes 2 operands, not 3");
    check_line("mov R0 5, 6", "mov takes 2 operands, not 3");
}

#[test]
fn operands_of_another_kind() {
    check_line("push 5", "5 stands where a register is due");
    check_line("jz R1", "R1 stands where an address is due");
    check_line("jmp [5]", "[5] stands where a register or an address is due");
    check_line("sub R0, R1, 5", "5 stands where a register is due");
    check_line("mov IN, 5", "5 stands where Ack is due");
    check_line("mask IN, R1", "R1 stands where a number is due");
    check_line("mov OUT, 5", "5 stands where a register or an address in brackets is due");
    check_line("mov LCDcmd, R0", "R0 stands where a number, Init or Clr is due");
    check_line("cmp R0, loop", "\"loop\" stands where a register or a number is due");
    check_line("jgt R0, loop, 5", "\"loop\" stands where a register or a number is due");
    check_line("jge R0, R1, R2", "R2 stands where an address is due");
    check_line("add 5, R0, R0", "5 stands where a register or NONE is due");
    check_line("add NONE, R0, 1", "1 stands where a register is due");
    check_line("inc NONE", "\"NONE\" stands where a register is due");
    let first = "5 stands where a register, NONE, IN, an address in brackets, a register in \
                 brackets, OUT, LCD or LCDcmd is due";
    check_line("mov 5, R0", first);
}

#[test]
fn names_in_letters_of_another_case() {
    check_line("mov R0, in", "\"in\" is spelled IN");
    check_line("mov out, R0", "\"out\" is spelled OUT");
    check_line("mov lcdCmd, 1", "\"lcdCmd\" is spelled LCDcmd");
    check_line("mov LCDcmd, INIT", "\"INIT\" is spelled Init");
    check_line("and none, R0, R1", "\"none\" is spelled NONE");
}

#[test]
fn long_lines_are_cut() {
    let shown = "a".repeat(60);
    let told = format!("24 at line 1: \"{shown}\".. is no instruction or macro: ");
    let name = "a".repeat(1_000_000);
    let letters = format!("\"{shown}\".. has 1000000 letters: a label has 12 at most");
    check(&format!("{name}: hlt"), &(told.clone() + &letters));
    check(&name, &format!("{told}there is no mnemonic \"{shown}\".."));
}
