//! The Rust original again, for what it says while it reads a line: it prints an instruction's mnemonic and operands, and a warning
//! if it does not know it. These two messages are kept and its others dropped; it is compiled unchanged.

#[allow(unused_macros)]
macro_rules! println {
    ("Parse: '{}' -> Mnemonic: '{}', Operands: {:?}, Size: {}", $line:expr, $mnemonic:expr, $operands:expr, $size:expr) => {
        crate::heard::HEARD.set(Some(crate::heard::Instruction { mnemonic: $mnemonic.clone(), operands: $operands.clone(), known: true }))
    };
    ("Warnung: Unbekannte Instruktion: {}", $mnemonic:expr) => {
        crate::heard::HEARD.with_borrow_mut(|heard| heard.as_mut().expect("an instruction was read").known = false)
    };
    ($($t:tt)*) => {{}};
}

use crate::oracle::printed_labels;
use std::cell::RefCell;
use std::collections::HashMap;

include!(concat!(env!("OUT_DIR"), "/original.rs"));

/// An instruction as the original reads it, and whether it knows the mnemonic.
pub struct Instruction {
    pub mnemonic: String,
    pub operands: Vec<String>,
    pub known: bool,
}

thread_local! {
    static HEARD: RefCell<Option<Instruction>> = const { RefCell::new(None) };
}

/// What the original makes of a line that stands alone: the labels that it records, and its instruction if it has one.
pub fn alone(line: &str) -> (HashMap<String, u32>, Option<Instruction>) {
    let mut assembler = original::Assembler::new();
    HEARD.set(None);
    assembler.assemble(&[line]);
    let mut printed = String::new();
    assembler.print_assembly_to_string(&mut printed);
    (printed_labels(&printed), HEARD.take())
}
