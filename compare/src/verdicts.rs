//! Recorded verdicts, call 5 with the base and the line. What a line says is written out from the words of docs/LANGUAGE.md,
//! which a comment before each group names; for random sources the Rust original says whether a line emits, and reasons.rs why not.
use crate::generate::{script_with_faults, Random};
use crate::reasons::PHRASES;
use crate::record;
use crate::requests::{refused, Call, LIMIT};
use crate::silence::Read;

const EMITTED: &str = PHRASES[0];
const NOT: &str = PHRASES[1];
const UNKNOWN: &str = PHRASES[2];
const COUNT: &str = PHRASES[3];
const KINDS: &str = PHRASES[4];
const NO_DIGITS: &str = PHRASES[5];
const BAD_DIGIT: &str = PHRASES[6];
const OUT_OF_RANGE: &str = PHRASES[7];
const LABEL: &str = PHRASES[8];
const FAR: &str = PHRASES[9];

/// All recorded verdicts.
pub fn verdicts(out: &mut Vec<Call>) {
    let mut why = |source: &[u8], base, line, text: String| {
        out.push(Call { number: 5, x: base, y: line, source: source.to_vec(), text });
    };
    let alone = ALONE.iter().flat_map(|(said, lines)| lines.iter().map(move |line| (*line, std::slice::from_ref(said))));
    for (source, said) in alone.chain(TOGETHER) {
        // The rules: the base matters for 4 and 5 only.
        for base in [0, 0x2000] {
            for (line, phrase) in (1..).zip(said) {
                why(source.as_bytes(), base, line, format!("{phrase}\n"));
            }
        }
        let past = said.len() + 1;
        if source.contains('\n') {
            why(source.as_bytes(), 0, past as u32, refused(13, past));
        }
        // Which lines are read and which of them emit the original says too, and reasons.rs the reasons.
        let read = Read::new(source, 0);
        assert!((1..past).all(|line| read.reads(line) && said_by(&read, line) == said[line - 1]) && !read.reads(past), "{source:?}");
    }
    verdict_limits(&mut why);
    verdicts_by_silence(&mut why);
}

/// What the original and reasons.rs say of a line that is read.
fn said_by(read: &Read, line: usize) -> &'static str {
    PHRASES[read.verdict(line).expect("the line can be silenced") as usize]
}

/// What is said of a line that is the whole source.
const ALONE: [(&str, &[&str]); 9] = [
    (
        EMITTED,
        &[
            // The rules: exactly if it emits. The stations' forms, the odd ones among them.
            "MOVE.L #5,D0", "MOVE.L (A1),D2", "MOVE.L D2,(A1)", "MOVE D1,D2", "X: MOVE.L X,D0", "X: MOVE.L D0,X", "X: MOVEA.L #X,A0",
            ": MOVEA.L #,A0", "MULS #5,D0", "MULS D1,D2", "ADD D0,D1", "SUB D0,D1", "CMP.L #4160,D2", "CMP D0,D1", "MOVEQ #127,D0",
            "MOVEQ #-128,D0", "MOVEQ #0x-80,D0", "SUBQ #8,D0", "SUBQ #0,D0", "SUBQ #9,D0", "SUBQ #-1,D0", "ASL #3,D1", "TST D0", "NOP",
            "SIMHALT", "X: JMP X", "X: JUMP X", "X: DBRA D0,X", "DBRA D0,+5", "X: BRA X", "BRA -128", "BNE +127", "move.l #5,D0", " tst D7",
            "DC.B 5",
            // The rules: DC with a value; also where the line's own mnemonic becomes the label, and for DS with DC. in it (step 5).
            "DC.L 5", "X: DC.W $10", "X DC.B 1", "A: B: DC.L 5", "NOP DC.W 9", "X: ; DC.L 4", "DS.L 5 ; DC.",
            // The rules: the suffix is never a reason.
            "MOVE.X D0,D1", "NOP.", "BRA.S +5", "MOVE.L.W (A1),D0", "MULS.l #5,D0", "MOVEQ.B #1,D0",
            // The rules: any count for NOP and SIMHALT, one or more for a branch; which is judged by its first operand.
            "NOP 1,2,3", "NOP ; n", "SIMHALT x", "NOP : NOP", "BRA +5,D0,#", "X: BEQ X,D0", "X: BLT X,+200",
            // Step 6: empties are removed before they are counted.
            "NOP ,", "BRA -2,", "TST D0,", "ADD D0,D1,", "MOVE.L ,(A1),,D0,",
            // The rules: a recorded label named like another kind, if it makes a word.
            "D0: BRA D0", "D0: JMP D0", "(A0): JMP (A0)", "#X: BRA #X", "A0: MOVE A0,D0", "A0: MOVE D0,A0", "#5: MOVE D0,#5", "D1: DBRA D0,D1",
            // The rules: an immediate that can't be read yields no word, save where a later MOVE row fits.
            "#zz: MOVE #zz,D0", "#: MOVE #,D0", "#70000: MOVE.L #70000,D7",
            // The rules: numbers with a sign, leading zeros and prefixes, at their limits.
            "MOVE #65535,D0", "MOVE #$FFFF,D0", "MULS #0x+fFfF,D0", "CMP #+0,D0", "MOVEQ #00000000000000000000127,D0", "ASL #$+7F,D0",
            "SUBQ #-0,D0", "MOVE #300,D0", "JMP 65535", "JMP $FFFF", "JMP 0x10", "JMP $+10", "JUMP 000000065535", "BRA +0127", "BRA -0",
            // The rules: a label within reach comes before its text as a signed number. And: a number is no label for JMP.
            "+5x: BRA +5x", "+: BRA +", "+200: BRA +200", "-200: DBRA D3,-200", "5x: JMP 5x", "+5: JMP +5", "5: MOVEA #5,A0", "5: BRA 5", "16: JMP 16",
        ],
    ),
    (
        NOT,
        &[
            // The rules: skipped, label only, ORG, DS.
            "", " \t\r", ";", "; n", "; DC.L 5", "X:", ":", "NOP:", "DC.L:", "DC.L 5:", "ORG 5", "org $10", "ORG", "ORG x", "ORGANIC 64", "ORG: NOP",
            "DS.L 5", "DS.L", "X DS.B x", "X: DS.W 1", "NOP DS.B 1",
            // The rules: DC whose number fails.
            "DC.L", "X DC.L", "DC.L $", "DC.L 3O", "DC.L -1", "DC.L 5,6", "DC.L 4294967296", "FOODC.L 5", "X: DC.L: 5", "X: ; DC.L",
            // Step 5: data by what the line contains.
            "NOP ; see DC.W", "MOVE.L DC.X,D0", "BRA X ; DS.",
            // The rules: the END line itself. by its start.
            "END", "  end", "ENDX: NOP", "ENDX DC.L 5", "Endless",
        ],
    ),
    (
        UNKNOWN,
        &[
            // The rules.
            "X: END", "X: ORG 5", "X: ; n", "A: B: NOP", ".L D0",
            // The rules' order: before the count and the kinds.
            "FOO", "FOO A0", "MOVEM D0,D1", "BHS +5", "CMPI.L #5,D0", "LEA X,A0", "MOV #zz,D0", "BRAX",
            // Step 6: the mnemonic is what stands before a blank or a dot; step 4: a colon ends a label wherever it is.
            "NOP,", "NOP;n", "MOVEQ#3,D1", "ADD,D0,D1", "x", "5", "#", "MOVEQ #1:2,D0", "A: B:", "A: :",
        ],
    ),
    (
        COUNT,
        &[
            // The rules: two.
            "MOVE D0", "MOVE", "MOVE D0,D1,D2", "MOVEA #X", "MOVEA #X,A0,A1", "MULS #5", "MULS D0,D1,D2", "ADD D0", "ADD D0,", "ADD D0,D1,D2", "SUB", "SUB D0,D1,D2",
            "CMP #5", "CMP #5,D0,D1", "MOVEQ #3", "MOVEQ #3,D0,D1", "SUBQ #1", "SUBQ #1,D0,D1", "ASL", "ASL #1,D0,D1", "DBRA D0", "DBRA +5", "DBRA D0,D1,+5",
            // The rules: one; one or more.
            "TST", "TST D0,D1", "JMP", "JMP X,Y", "JUMP ,", "JUMP 5,6", "BRA", "BCC", "BCS", "BNE ,", "BEQ", "BPL", "BMI", "BGE", "BLT", "bgt.s", "BLE",
            // The rules' order: before kinds, numbers and labels.
            "ADD A0", "TST A0,A1", "JMP #5,#6", "MOVEQ #zz", "MOVE X", "DBRA NOWHERE",
            // Step 6: commas part the operands. And: trailing comments are operand text.
            "ADD D0 D1", "TST D0 ; a, b", "JMP 5 ; a, b",
        ],
    ),
    (
        KINDS,
        &[
            // The rules: the forms, and kinds by text alone.
            "ADD d0,D1", "ADD D8,D0", "ADD D0,(A0)", "SUB #1,D0", "SUB A0,D1", "MULS X,D0", "MULS #5,A0", "MULS D0,5", "CMP D0,#5", "CMP X,D0", "CMP 3O,D0",
            "MOVEQ 5,D0", "MOVEQ D0,D1", "MOVEQ #1,A0", "MOVEQ #1,d0", "MOVEQ 300,D0", "SUBQ D0,D1", "SUBQ #1,X", "ASL D0,D1", "TST d0", "TST D8", "TST A0",
            "TST (A0)", "TST #5", "TST X", "MOVE A0,D0", "MOVE D0,A0", "MOVE (A0),(A1)", "MOVE (A0),X", "MOVE X,(A0)", "MOVE X,A0", "MOVE X,Y", "MOVE D0,#5",
            "MOVE #5,A0", "MOVE #5,X", "MOVE #5,(A0)", "MOVE #5,#6", "MOVEA X,A0", "MOVEA D0,A0", "MOVEA #X,D0", "MOVEA #X,a0", "MOVEA #X,A8", "JMP D0", "JMP A0",
            "JMP (A0)", "JMP #5", "JUMP #X", "BRA D0", "BRA A0", "BRA (A0)", "BRA #5", "DBRA X,+5", "DBRA A0,+5", "DBRA d0,+5", "DBRA D0,D1", "DBRA D0,#5",
            "DBRA D0,(A0)",
            // The rules: a branch is judged by its first operand.
            "BRA D0,+5", "X: BRA D0,X", "BNE #,+5",
            // The rules: for MOVE a number is blamed only if the pair is `#` with Dn, for MOVEA never; kinds come before numbers and labels.
            "MOVE #zz,A0", "MOVE #zz,X", "MOVE #zz,(A0)", "MOVEA #zz,D0", "MOVEQ #zz,A0", "CMP #-1,A0", "DBRA A0,+5x", "DBRA A0,NOWHERE", "MOVE NOWHERE,A0",
            // The rules: trailing comments are operand text.
            "MOVEQ #3,D1 ; three", "ADD D0,D1 ; n", "MOVE #5,D0 ; n", "TST D0 x",
            // The rules: a recorded label that makes no word: the text's kind decides.
            "X: TST X", "X: MULS X,D0", "X: MOVEA X,A0", "X: MOVE X,A0", "X: MOVE (A0),X", "#5: MOVE #5,A0", "D0: ADD A0,D0", "A0: MOVEA #X,D0",
        ],
    ),
    (
        NO_DIGITS,
        &[
            // The rules: nothing after the prefix and an allowed sign.
            "MOVE.L #,D0", "MOVE.L #+,D0", "MOVE.L #$,D0", "MOVE.L #0x,D0", "MOVE.L #0x+,D0", "CMP #$+,D0", "CMP.L #,D1", "MULS #,D2", "MULS #+,D2", "MOVEQ #,D0",
            "MOVEQ #+,D0", "MOVEQ #-,D0", "MOVEQ #$-,D0", "MOVEQ #0x-,D0", "SUBQ #$+,D0", "SUBQ #-,D0", "ASL #0x,D0", "X: ASL #,D0",
            // The rules: JMP's number and a branch's signed operand by the same reader; a recorded label does not help JMP.
            "JMP $", "JMP 0x", "JUMP $+", "JUMP 0x+", "$: JMP $", "BRA +", "BNE -", "BLE +,X", "DBRA D0,+", "DBRA D7,-",
        ],
    ),
    (
        BAD_DIGIT,
        &[
            // The rules: `#3O`. And: `MOVE #zz,D0`.
            "MOVEQ #3O,D0", "MOVE #3O,D0", "MOVE #zz,D0",
            // The rules: − in an unsigned type, alone too.
            "CMP #-1,D0", "CMP #-,D0", "MOVE.L #-,D0", "MOVE.L #$-1,D0", "MOVE.L #$-,D0", "MULS #-1,D0", "MULS #0x-,D0",
            // A second sign, a sign before a prefix, `0X`; a late one beats a value out of range.
            "MOVEQ #--1,D0", "MOVEQ #+-1,D0", "MOVEQ #-+1,D0", "MOVEQ #++,D0", "MOVEQ #$--,D0", "MOVE #++1,D0", "MOVEQ #+$10,D0", "MOVEQ #-0x10,D0", "MOVE #+0x10,D0",
            "MOVEQ #0X10,D0", "MOVE #0X,D0", "MOVEQ #99999999999999O,D0", "MOVE #99999999999999O,D0", "CMP #65536x,D0", "MULS #$1000000000G,D0",
            "ASL #-99999999999999O,D0", "SUBQ #$1G,D0", "ASL #1A,D0", "MOVEQ #$$1,D0", "MOVE #0x$1,D0", "MOVEQ ##1,D0", "MOVE.L # 5,D0", "MOVE #5 6,D0",
            // The rules: JMP's number, of digits only or with a prefix, is never a label; a signed operand is decimal, without a prefix.
            "JMP $G", "JMP $-1", "JMP 0x1G", "JUMP $10000000000O", "JMP $ 5", "$G: JMP $G", "BRA +1x", "BRA -$10", "BRA +0x10", "BRA --5", "BRA +-5", "BRA + 5",
            "BRA +99999999999999O", "BRA -1A,X", "DBRA D0,+5x", "DBRA D0,--5",
            // The rules: trailing comments are operand text.
            "BRA +5 ; n", "JMP $10 ; n",
        ],
    ),
    (
        OUT_OF_RANGE,
        &[
            // The rules: `#300`. The limits of 8 bits signed and 16 unsigned.
            "MOVEQ #300,D0", "MOVEQ #128,D0", "MOVEQ #-129,D0", "MOVEQ #$80,D0", "MOVEQ #0x-81,D0", "MOVEQ #+00128,D0", "SUBQ #128,D0", "ASL #-129,D0",
            "MOVE #65536,D0", "MOVE #$10000,D0", "CMP.L #65536,D0", "MULS #+65536,D0", "MULS #0x10000,D0", "MOVE #99999999999999999999,D0",
            "MOVE #18446744073709551617,D0", "MOVEQ #-99999999999999999999,D0", "MOVEQ #4294967297,D0",
            // The rules: JMP's number, though a label is named so; a signed branch operand that doesn't fit is no displacement.
            "70000: JMP 70000", "JMP 65536", "JMP $10000", "JUMP 0x10000", "JMP 18446744073709551617", "BRA +200", "BRA +128", "BRA -129", "BNE -200,X",
            "DBRA D0,+128", "DBRA D0,-129", "BRA +99999999999999999999", "BRA -18446744073709551617",
        ],
    ),
    (
        LABEL,
        &[
            // The rules: a label or number without `#` is other text.
            "MOVE 5,D0", "BRA 5", "JMP +5", "MOVEA #5,A0", "MOVE.L X,D0", "MOVE.L D0,X", "MOVE d0,D1", "MOVE D8,D0", "MOVE D0,D8", "MOVE (A0)+,D0", "MOVE D0,(A8)",
            "MOVE D0,(a0)", "MOVE +5,D0", "MOVE D0,-200", "MOVE 3O,D0", "MOVE $1000,D0", "JMP X", "JMP d0", "JMP (A0)+", "BRA X", "BRA d0", "BRA D8", "BRA $10",
            "BRA 99999", "DBRA D0,X", "DBRA D0,5", "DBRA D0,d1",
            // The rules: a branch is judged by its first operand; for MOVEA a number is never blamed.
            "BRA X,D0", "BRA X,+5", "MOVEA #X,A0", "MOVEA #,A0", "MOVEA #3O,A0", "MOVEA #300000,A0", "MOVEA #$,A0", "MOVEA #-,A1", "MOVEA ##X,A2",
            // The rules: JMP's number starts `$` or `0x` or is of digits only; any other operand is a label.
            "JMP 5x", "JMP 0X10", "JMP -5", "JMP +", "JMP 99999999999999O", "JUMP 5 6",
            // The rules: names are compared byte by byte, an operand's inner blanks become one space. And: trailing comments are operand text.
            "X: BRA x", "X: MOVE.L x,D0", "X: JMP XX", "XX: JMP X", "x  y: BRA x  y", "X: BRA X ; back", "X: JMP X ;", "X: MOVE.L D0,X ; n", "X: MOVEA #X.,A0",
        ],
    ),
];

/// What is said of the lines of a source that are read, in order.
const TOGETHER: [(&str, &[&str]); 42] = [
    // P1, P9, and P11 with what follows it.
    (record::BEZEL, &[NOT, EMITTED, EMITTED, EMITTED, EMITTED, EMITTED, EMITTED, NOT]),
    (":\nMOVEA.L #,A0", &[NOT, EMITTED]),
    ("ENDX: NOP\nNOP", &[NOT]),
    // The rules: `NOP<10>` has a line 2; what follows END is never read.
    ("NOP\n", &[EMITTED, NOT]),
    ("NOP\nEND\nNOP", &[EMITTED, NOT]),
    ("\n; n\n\tend ; here\nEND\nNOP\n", &[NOT, NOT, NOT]),
    ("X: END\nNOP", &[UNKNOWN, EMITTED]),
    ("X: ORG 400\nBRA X", &[UNKNOWN, EMITTED]),
    // The rules: a label named like another kind that is out of reach, or in reach.
    ("BRA D0\nORG 400\nD0:", &[KINDS, NOT, NOT]),
    ("BRA D0\nD0:", &[EMITTED, NOT]),
    ("DBRA D1,D0\nORG 400\nD0:", &[KINDS, NOT, NOT]),
    ("#5: NOP\nORG 400\nBRA #5\nJMP #5\nMOVE #x,D0", &[EMITTED, NOT, KINDS, EMITTED, BAD_DIGIT]),
    // P7: displacements of 127, 128, −128 and −129.
    ("BRA X\nORG 129\nX:", &[EMITTED, NOT, NOT]),
    ("BRA X\nORG 130\nX:", &[FAR, NOT, NOT]),
    ("X:\nORG 126\nBRA X", &[NOT, NOT, EMITTED]),
    ("X:\nORG 127\nBRA X", &[NOT, NOT, FAR]),
    ("DBRA D0,X\nORG 129\nX:", &[EMITTED, NOT, NOT]),
    ("DBRA D0,X\nORG 130\nX:", &[FAR, NOT, NOT]),
    ("X:\nORG 126\nDBRA D7,X", &[NOT, NOT, EMITTED]),
    ("X:\nORG 127\nDBRA D7,X", &[NOT, NOT, FAR]),
    // The address counts as step 6 has it: four bytes for an immediate of MOVE.L, one for DC.B.
    ("X: MOVE.L #5,D0\nORG 122\nMOVE.L #5,D0\nBRA X", &[EMITTED, NOT, EMITTED, EMITTED]),
    ("X: MOVE.L #5,D0\nORG 122\nMOVE.L #5,D0\nDC.B 1\nBRA X", &[EMITTED, NOT, EMITTED, EMITTED, FAR]),
    // The rules: a label recorded again takes the later address, and one after END none.
    ("X: NOP\nBRA X\nORG 400\nX:", &[EMITTED, FAR, NOT, NOT]),
    ("ORG 400\nX:\nORG 0\nBRA X\nX:", &[NOT, NOT, NOT, EMITTED, NOT]),
    ("BRA X\nEND\nX:", &[LABEL, NOT]),
    ("BRA X\nX:\nEND\nORG 400\nX:", &[EMITTED, NOT, NOT]),
    ("MOVE.L X,D0\nMOVE.L Y,D0\nX:", &[EMITTED, LABEL, NOT]),
    ("MOVE.L A,D0\nMOVE.L B,D0\nA: B DS.L 1", &[EMITTED, EMITTED, NOT]),
    ("NOP ; see DC.W\nJMP NOP", &[NOT, EMITTED]),
    // The rules: the suffix of a far branch, its other operands and the other mnemonics that name the label.
    ("X: NOP\nORG 400\nBRA.S X\nBNE X,D0\nBEQ D0,X\nDBRA A0,X\nDBRA X\nJMP X\nMOVE.L X,D0\nMOVEA #X,A0", &[EMITTED, NOT, FAR, FAR, KINDS, KINDS, COUNT, EMITTED, EMITTED, EMITTED]),
    // The rules: a label out of reach whose text starts + or − and fails as a number: the number is blamed. else it is read.
    ("+5x: NOP\nORG 400\nBRA +5x", &[EMITTED, NOT, BAD_DIGIT]),
    ("+: NOP\nORG 400\nBRA +", &[EMITTED, NOT, NO_DIGITS]),
    ("+200: NOP\nORG 400\nBRA +200", &[EMITTED, NOT, OUT_OF_RANGE]),
    ("-x: NOP\nORG 400\nDBRA D0,-x", &[EMITTED, NOT, BAD_DIGIT]),
    ("+5: NOP\nORG 400\nBRA +5\nDBRA D0,+5", &[EMITTED, NOT, EMITTED, EMITTED]),
    ("5: NOP\nORG 400\nBRA 5", &[EMITTED, NOT, FAR]),
    // The rules: an operand's pieces are joined by one space.
    ("x y: NOP\nMOVE.L x   \t y,D0\nBRA  x\u{b}y", &[EMITTED, EMITTED, EMITTED]),
    // The rules: the rows of MOVE in order, with labels named like kinds and numbers.
    ("#x: NOP\nMOVE #x,D0\nMOVE D0,#x\nMOVE #x,A0\nCMP #x,D0\nMOVEQ #x,D0", &[EMITTED, EMITTED, EMITTED, KINDS, BAD_DIGIT, BAD_DIGIT]),
    ("5: NOP\nMOVE 5,D0\nMOVE D0,5\nMOVEA #5,A0\nMOVEQ 5,D0\nCMP 5,D0", &[EMITTED, EMITTED, EMITTED, EMITTED, KINDS, KINDS]),
    ("D0: NOP\nADD D0,D1\nADD A0,D0\nTST D0\nMOVE D0,A0\nMOVEA #D0,A0", &[EMITTED, EMITTED, KINDS, EMITTED, KINDS, EMITTED]),
    // Lines of every kind under each other; an operator finds the one that is a word short.
    ("ORG 8\nA: DC.L 5\nB DC.L\nDS.W 3\nGO: MOVEQ #3O,D1\n\tMOVE.L LIM,D2\nBNE GO", &[NOT, EMITTED, NOT, NOT, BAD_DIGIT, LABEL, EMITTED]),
    ("A:\r\nBRA A\r\nTST\r\n", &[NOT, EMITTED, COUNT, NOT]),
];

/// Lines and refusals at their limits: 13 for line 0, past the last and after END, with that line; 1 to 6 before it, whatever is asked.
fn verdict_limits(why: &mut impl FnMut(&[u8], u32, u32, String)) {
    let said = |phrase: &str| format!("{phrase}\n");
    for line in [0, 2, 4096, u32::MAX] {
        why(b"NOP", 0, line, refused(13, line as usize));
        why(b"", LIMIT - 1, line, refused(13, line as usize));
    }
    for line in [0, 3, 4, 5, 6] {
        why(b"NOP\nEND\nNOP\n\n", 0, line, refused(13, line as usize));
    }
    why(b"NOP\nEND\nORG $FFFFFFFF", 0, 1, said(EMITTED));
    why(b"NOP\nEND\nORG $FFFFFFFF", 0, 3, refused(13, 3));

    let filled = |n: usize, end: &str| ";".repeat(n - end.len()) + end;
    why(filled(32768, "\nTST").as_bytes(), 0, 2, said(COUNT));
    why(filled(32769, "\nTST").as_bytes(), 0, 2, refused(1, 32769));
    let mut long = "\n".repeat(32769).into_bytes();
    long[0] = 128;
    why(&long, LIMIT, 0, refused(1, 32769));

    why(b"\x7f", 0, 1, said(UNKNOWN));
    why(b"NOP\n\x80\xff", LIMIT, 0, refused(2, 4));
    why(b"NOP\nEND\n\x80", 0, 1, refused(2, 8));

    let lines = "\n".repeat(4095) + "BRA";
    for (line, phrase) in [(1, NOT), (4095, NOT), (4096, COUNT)] {
        why(lines.as_bytes(), 0, line, said(phrase));
    }
    why(lines.as_bytes(), 0, 4097, refused(13, 4097));
    why("\n".repeat(4096).as_bytes(), LIMIT, 0, refused(3, 4097));

    why(b"NOP", LIMIT, 0, refused(4, 0));
    why(b"NOP", u32::MAX, 1, refused(4, 0));
    why(b"A:", LIMIT - 1, 1, said(NOT));
    why(b"BRA X\nX:", LIMIT - 3, 1, said(EMITTED));
    why(b"FOO\nX:", LIMIT - 2, 1, refused(5, 1));
    why(b"NOP\nORG $40000000", 0, 0, refused(5, 2));
    why(b"NOP\nORG $40000000", 0, 1, refused(5, 2));
    why(b"NOP\nORG $3FFFFFFF", 1, 9, refused(5, 2));

    let labels = |n: usize| (0..n).map(|i| format!("L{i}:\n")).collect::<String>();
    let named = labels(256) + "JMP L0\nJMP L255\nJMP L256";
    for (line, phrase) in [(256, NOT), (257, EMITTED), (258, EMITTED), (259, LABEL)] {
        why(named.as_bytes(), 0, line, said(phrase));
    }
    why(labels(257).as_bytes(), 0, 0, refused(6, 257));
    why(labels(257).as_bytes(), 0, 1, refused(6, 257));
    why((labels(256) + "ORG $3FFFFFFE\nZ: NOP").as_bytes(), 0, 300, refused(6, 258));
}

/// Random sources: whether a line emits by the original's list with the line silenced, and why not by the reasons over what the
/// original reads in it; refusal 5 is the original's too.
fn verdicts_by_silence(why: &mut impl FnMut(&[u8], u32, u32, String)) {
    let mut r = Random(20261117);
    for _ in 0..500 {
        let s = script_with_faults(&mut r, 8);
        let base = if r.one_in(2) { 0 } else { r.below(100_000) as u32 };
        let line = r.below(s.split('\n').count() + 2);
        let text = match record::too_high(&s, base) {
            Some(at) => refused(5, at as usize),
            None => {
                let read = Read::new(&s, base);
                if read.reads(line) { format!("{}\n", said_by(&read, line)) } else { refused(13, line) }
            }
        };
        why(s.as_bytes(), base, line as u32, text);
    }
}
