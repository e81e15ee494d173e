//! Calls the checker from Rust on the two files that it is given, or on case A of the paper, and prints the answer.

mod boxcarousel;

use boxcarousel::{check, Answer, BYTES, WORDS};

const FORMULA_A: [u8; 14] = [0x01, 0, 4, 0, 2, 0, 1, 0x02, 0, 4, 0, 3, 0, 5];
const PROOF_A: [u8; 19] = [
    0x13, 0, 2, 0, 3, 0x21, 0, 8, 0, 1, 0, 4, 0, 2, 0, 2, 0x22, 0, 0,
];

fn main() -> std::io::Result<()> {
    let names: Vec<String> = std::env::args().skip(1).collect();
    let (formula, proof) = match &names[..] {
        [formula, proof] => (std::fs::read(formula)?, std::fs::read(proof)?),
        _ => (FORMULA_A.to_vec(), PROOF_A.to_vec()),
    };
    let mut words = vec![0u32; WORDS];
    let mut bytes = vec![0u8; BYTES];
    let short = check(&formula, &proof, &mut words[1..], &mut bytes);
    assert_eq!(
        short,
        Answer::Refused {
            reason: 1,
            step: 0,
            place: 0
        }
    );
    match check(&formula, &proof, &mut words, &mut bytes) {
        Answer::Refuted { steps } => println!("refuted 0 {steps} 0"),
        Answer::Held { steps } => println!("held 0 {steps} 0"),
        Answer::Refused {
            reason,
            step,
            place,
        } => println!("refused {reason} {step} {place}"),
    }
    Ok(())
}
