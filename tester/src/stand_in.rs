//! The model as a program, so that the tester can be tried without the engine: `stand_in replay|frame|trace|large`, input on standard
//! input. `tester/wrong` builds it from copies of the model with one operand changed; the tester must catch each.

#[allow(dead_code)]
mod model;
#[allow(dead_code)]
mod programs;
mod stream;

use std::io::{Read, Write};

fn main() {
    let mut input = Vec::new();
    if let Err(error) = std::io::stdin().read_to_end(&mut input) {
        eprintln!("stand_in: {error}");
        std::process::exit(1);
    }
    let output = match std::env::args().nth(1).as_deref() {
        Some("replay") => programs::replay(&input, &mut programs::Nobody).0.into_bytes(),
        Some("frame") => programs::replay(&input, &mut programs::Nobody).1,
        Some("trace") => programs::trace(&input, &mut programs::Nobody).into_bytes(),
        Some("large") => match std::str::from_utf8(&input).ok().and_then(stream::parse) {
            Some(case) => programs::large(&case, &mut programs::Nobody).into_bytes(),
            None => {
                eprintln!("stand_in: the case cannot be read");
                std::process::exit(1);
            }
        },
        _ => {
            eprintln!("usage: stand_in replay|frame|trace|large");
            std::process::exit(2);
        }
    };
    if std::io::stdout().write_all(&output).is_err() {
        std::process::exit(1);
    }
}
