//! `slotrun` with the Rust inside: reads commands, prints what is answered.
//! usage: original_slotrun [--hex]     --hex: hexadecimal digits, a comment behind #
use original::commands;
use std::io::Read;

fn main() {
    let mut input = Vec::new();
    std::io::stdin().read_to_end(&mut input).unwrap();
    if std::env::args().any(|a| a == "--hex") {
        input = commands::from_hex(&String::from_utf8(input).expect("text"));
    }
    print!("{}", commands::run(&input));
}
