//! Saved states of generators, as the plain form writes and reads them. For each line of standard
//! input it writes one:
//!
//! - `run BYTES`, in hexadecimal digits: a generator is started where it is halted, is handed each
//!   byte, and is written as it stands then;
//! - `wrap BYTES`: the same, of one whose stack wraps;
//! - `read BYTES`: the state that these are, written again, or `refused`, and why.
use gerbilargent::{Generator, GeneratorState, Global, StateFault, WrappingGenerator};
use std::fmt::Write;
use std::io;

fn bytes_of(digits: &str) -> Vec<u8> {
    let pairs = digits.as_bytes().chunks(2);
    pairs.map(|pair| u8::from_str_radix(str::from_utf8(pair).unwrap(), 16).unwrap()).collect()
}

fn digits_of(bytes: &[u8]) -> String {
    bytes.iter().fold(String::new(), |mut text, byte| {
        write!(text, "{byte:02x}").unwrap();
        text
    })
}

fn written(generator: &Generator) -> String {
    digits_of(&generator.state().to_bytes(generator.strokes()).unwrap())
}

fn written_wrapping(wrapping: &WrappingGenerator) -> String {
    let strokes = wrapping.generator().strokes();
    digits_of(&wrapping.state().to_wrapping_bytes(strokes).unwrap())
}

fn run(bytes: &[u8]) -> String {
    let mut generator = Generator::new(Global);
    for byte in bytes {
        if generator.halted() {
            generator.start();
        }
        generator.feed(Some(*byte)).unwrap();
    }
    written(&generator)
}

fn wrap(bytes: &[u8]) -> String {
    let mut wrapping = WrappingGenerator::new(Global);
    for byte in bytes {
        if wrapping.generator().halted() {
            wrapping.start();
        }
        wrapping.feed(Some(*byte)).unwrap();
    }
    written_wrapping(&wrapping)
}

fn read(bytes: &[u8]) -> Result<String, StateFault> {
    match GeneratorState::from_bytes(bytes) {
        Err(StateFault::OtherClass) => {
            let (state, strokes) = GeneratorState::from_wrapping_bytes(bytes)?;
            let mut wrapping = WrappingGenerator::new(Global);
            wrapping.resume(&state, strokes).unwrap();
            Ok(written_wrapping(&wrapping))
        }
        read => {
            let (state, strokes) = read?;
            let mut generator = Generator::new(Global);
            generator.resume(&state, strokes).unwrap();
            Ok(written(&generator))
        }
    }
}

fn main() {
    for line in io::stdin().lines() {
        let line = line.unwrap();
        let (what, digits) = line.split_once(' ').unwrap();
        let bytes = bytes_of(digits);
        println!("{}", match what {
            "run" => run(&bytes),
            "wrap" => wrap(&bytes),
            _ => read(&bytes).unwrap_or_else(|fault| format!("refused: {fault}")),
        });
    }
}
