//! The programs that go on for ever, as text. Their sheet words are 0: nobody admits them.

/// Products of keys, data and a counter, some of them shown; from 16 on, R0 times R1.
pub const MIX: &str = "
    0   0000  3C 00  mov R3, 0
    1   0000  40 00  mov R0, IN
    2   0000  50 00  mov IN, Ack
    3   0000  77 00  mov R1, [R3]
    4   0000  00 11  add R0, R0, R1
    5   0000  04 03  mov R1, R3
    6   0000  A8 10  call 16
    7   0000  58 03  mov [R3], R0
    8   0000  24 64  cmp R0, 100
    9   0000  D8 0C  jlt 12
    10  0000  F0 00  mov OUT, R0
    11  0000  E8 00  mov LCD, R0
    12  0000  1F 01  add R3, R3, 1
    13  0000  B4 01  jnz 1
    14  0000  E0 01  mov LCDcmd, 1
    15  0000  A0 00  jmp 0
    16  0000  5E 00  push R2
    17  0000  5F 00  push R3
    18  0000  38 00  mov R2, 0
    19  0000  3C 08  mov R3, 8
    20  0000  29 01  mask R1, 1
    21  0000  B0 17  jz 23
    22  0000  0A 10  add R2, R2, R0
    23  0000  05 D0  srl R1, R1
    24  0000  00 C0  sll R0, R0
    25  0000  1F FF  add R3, R3, 255
    26  0000  B4 14  jnz 20
    27  0000  00 02  mov R0, R2
    28  0000  8C 00  pop R3
    29  0000  88 00  pop R2
    30  0000  AC 00  ret
";

/// All functions of the ALU, one after another.
pub const ALU: &str = "
    0   0000  30 01  mov R0, 1
    1   0000  34 35  mov R1, 53
    2   0000  38 C6  mov R2, 198
    3   0000  3C 7F  mov R3, 127
    4   0000  00 11  add R0, R0, R1
    5   0000  05 32  addc R1, R1, R2
    6   0000  0A 23  sub R2, R2, R3
    7   0000  0F 40  subb R3, R3, R0
    8   0000  20 52  and NONE, R0, R2
    9   0000  05 83  xor R1, R1, R3
    10  0000  00 62  or R0, R0, R2
    11  0000  0A 70  not R2, R2
    12  0000  0F 91  nand R3, R3, R1
    13  0000  00 A1  nor R0, R0, R1
    14  0000  0A B0  xnor R2, R2, R0
    15  0000  05 C0  sll R1, R1
    16  0000  0F D0  srl R3, R3
    17  0000  0A E0  sra R2, R2
    18  0000  00 F0  rol R0, R0
    19  0000  04 02  mov R1, R2
    20  0000  15 2D  add R1, R1, 45
    21  0000  26 40  cmp R2, 64
    22  0000  2B 0F  mask R3, 15
    23  0000  0F 10  add R3, R3, R0
    24  0000  00 81  xor R0, R0, R1
    25  0000  0A 21  sub R2, R2, R1
    26  0000  0F F0  rol R3, R3
    27  0000  10 9D  add R0, R0, 157
    28  0000  A0 04  jmp 4
";

/// Loads and stores at fixed and at moving addresses, pushes, pops and swaps.
pub const MEMORY: &str = "
    0   0000  30 00  mov R0, 0
    1   0000  74 00  mov R1, [R0]
    2   0000  15 4D  add R1, R1, 77
    3   0000  59 00  mov [R0], R1
    4   0000  5D 00  push R1
    5   0000  68 40  mov R2, [64]
    6   0000  9E 00  swap R3, R2
    7   0000  57 41  mov [65], R3
    8   0000  88 00  pop R2
    9   0000  56 40  mov [64], R2
    10  0000  5C 00  push R0
    11  0000  5F 00  push R3
    12  0000  84 00  pop R1
    13  0000  80 00  pop R0
    14  0000  10 01  add R0, R0, 1
    15  0000  A0 01  jmp 1
";

/// Routines that call routines, four deep.
pub const CALLS: &str = "
    0   0000  A8 05  call 5
    1   0000  A8 09  call 9
    2   0000  A8 0D  call 13
    3   0000  F0 00  mov OUT, R0
    4   0000  A0 00  jmp 0
    5   0000  A8 09  call 9
    6   0000  A8 0D  call 13
    7   0000  A8 09  call 9
    8   0000  AC 00  ret
    9   0000  A8 0D  call 13
    10  0000  10 01  add R0, R0, 1
    11  0000  A8 0D  call 13
    12  0000  AC 00  ret
    13  0000  A8 10  call 16
    14  0000  15 03  add R1, R1, 3
    15  0000  AC 00  ret
    16  0000  AC 00  ret
";

/// Every conditional jump, taken and untaken, after a comparison that comes out in eight ways.
pub const BRANCHES: &str = "
    0   0000  3C E0  mov R3, 224
    1   0000  10 4D  add R0, R0, 77
    2   0000  04 53  and R1, R0, R3
    3   0000  25 40  cmp R1, 64
    4   0000  C8 06  jlz 6
    5   0000  C4 07  jnv 7
    6   0000  D4 08  jleu 8
    7   0000  C0 09  jv 9
    8   0000  D8 0A  jlt 10
    9   0000  B0 0B  jz 11
    10  0000  CC 0C  jp 12
    11  0000  B8 0D  jc 13
    12  0000  D0 0E  jgz 14
    13  0000  BC 0F  jnc 15
    14  0000  DC 10  jle 16
    15  0000  B4 11  jnz 17
    16  0000  A0 01  jmp 1
    17  0000  A0 01  jmp 1
";
