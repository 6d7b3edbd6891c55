//! Opens the sheet of the listing (docs/RULES.md, P1) through the library and prints the words of its result, or its refusal,
//! as the opening program does.

#[path = "../include/boxashewu.rs"]
mod boxashewu;

use std::process::ExitCode;

const SHEET: [u32; 11] = [
    0x1000005a, 0x2000006e, 0x30000064, 0x40000064, 0x50000002, // D 90, H 110, last 100, I 100, 2 orders
    0x60000069, 0x8000000a, 0x90000000, // a buy of 10 at 105
    0x7000005f, 0x80000004, 0x90000000, // a sell of 4 at 95
];

fn main() -> ExitCode {
    let mut space = vec![0; boxashewu::OPENING_WORDS];
    match boxashewu::opening(&SHEET, &mut space) {
        Ok(words) => {
            words.iter().for_each(|word| println!("{word:08x}"));
            ExitCode::SUCCESS
        }
        Err(refusal) => {
            println!("{refusal}");
            ExitCode::FAILURE
        }
    }
}
