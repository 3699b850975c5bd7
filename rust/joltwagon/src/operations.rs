//! Operations by name, as docs/ROWS.md numbers them (harness/header.py compares).

/// An operation by its number.
#[derive(Clone, Copy, PartialEq, Eq, Debug)]
pub struct Operation(pub u16);

impl Operation {
    /// The operation of a name in upper case; aliases have numbers of their own.
    pub fn named(name: &str) -> Option<Operation> {
        NAMES.iter().find(|(known, _)| *known == name).map(|&(_, number)| Operation(number))
    }

    /// Its name, where the number is known.
    pub fn name(self) -> Option<&'static str> {
        NAMES.iter().find(|(_, number)| *number == self.0).map(|&(name, _)| name)
    }
}

#[rustfmt::skip]
const NAMES: [(&str, u16); 139] = [
    ("NEG", 0), ("COM", 3), ("LSR", 4), ("ROR", 6), ("ASR", 7), ("ASL", 8), ("ROL", 9), ("DEC", 10),
    ("INC", 12), ("TST", 13), ("JMP", 14), ("CLR", 15), ("NEGA", 16), ("COMA", 19), ("LSRA", 20), ("RORA", 22),
    ("ASRA", 23), ("ASLA", 24), ("ROLA", 25), ("DECA", 26), ("INCA", 28), ("TSTA", 29), ("CLRA", 31),
    ("NEGB", 32), ("COMB", 35), ("LSRB", 36), ("RORB", 38), ("ASRB", 39), ("ASLB", 40), ("ROLB", 41),
    ("DECB", 42), ("INCB", 44), ("TSTB", 45), ("CLRB", 47), ("SUBA", 48), ("CMPA", 49), ("SBCA", 50),
    ("SUBD", 51), ("ANDA", 52), ("BITA", 53), ("LDA", 54), ("STA", 55), ("EORA", 56), ("ADCA", 57), ("ORA", 58),
    ("ADDA", 59), ("CMPX", 60), ("JSR", 61), ("LDX", 62), ("STX", 63), ("SUBB", 64), ("CMPB", 65), ("SBCB", 66),
    ("ADDD", 67), ("ANDB", 68), ("BITB", 69), ("LDB", 70), ("STB", 71), ("EORB", 72), ("ADCB", 73), ("ORB", 74),
    ("ADDB", 75), ("LDD", 76), ("STD", 77), ("LDU", 78), ("STU", 79), ("BRA", 80), ("BRN", 81), ("BHI", 82),
    ("BLS", 83), ("BCC", 84), ("BCS", 85), ("BNE", 86), ("BEQ", 87), ("BVC", 88), ("BVS", 89), ("BPL", 90),
    ("BMI", 91), ("BGE", 92), ("BLT", 93), ("BGT", 94), ("BLE", 95), ("LBRA", 96), ("LBRN", 97), ("LBHI", 98),
    ("LBLS", 99), ("LBCC", 100), ("LBCS", 101), ("LBNE", 102), ("LBEQ", 103), ("LBVC", 104), ("LBVS", 105),
    ("LBPL", 106), ("LBMI", 107), ("LBGE", 108), ("LBLT", 109), ("LBGT", 110), ("LBLE", 111), ("LBSR", 112),
    ("BSR", 113), ("CMPD", 114), ("CMPY", 115), ("LDY", 116), ("LDS", 117), ("STY", 118), ("STS", 119),
    ("SWI2", 120), ("CMPU", 121), ("CMPS", 122), ("SWI3", 123), ("NOP", 124), ("SYNC", 125), ("DAA", 126),
    ("SEX", 127), ("RTS", 128), ("ABX", 129), ("RTI", 130), ("MUL", 131), ("SWI", 132), ("ORCC", 133),
    ("ANDCC", 134), ("CWAI", 135), ("EXG", 136), ("TFR", 137), ("PSHS", 138), ("PULS", 139), ("PSHU", 140),
    ("PULU", 141), ("LEAX", 142), ("LEAY", 143), ("LEAS", 144), ("LEAU", 145), ("LSL", 146), ("LSLA", 147),
    ("LSLB", 148), ("BHS", 149), ("BLO", 150), ("LBHS", 151), ("LBLO", 152),
];
