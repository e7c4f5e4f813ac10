//! Shows that a replay program can fail: one flipped bit of its input changes what it writes.
use crate::record::PAGE;
use crate::rng::Rng;
use std::fs;
use std::io::Write;
use std::path::Path;
use std::process::{Command, Stdio};

fn run(program: &str, input: &[u8]) -> Vec<u8> {
    let mut child = Command::new(program)
        .stdin(Stdio::piped())
        .stdout(Stdio::piped())
        .spawn()
        .expect("the program can be run");
    // a program that stops reading early shows it by what it writes
    let _ = child.stdin.take().expect("a pipe").write_all(input);
    child.wait_with_output().expect("the program ends").stdout
}

/// The bytes that mean something: not the zeros that fill up a page.
fn meant(input: &[u8]) -> Vec<usize> {
    let mut bytes = vec![];
    for (k, page) in input.chunks(PAGE).enumerate() {
        let end = page.iter().rposition(|b| *b != 0).map_or(0, |at| at + 1);
        bytes.extend(k * PAGE..k * PAGE + end);
    }
    bytes
}

/// Runs the program on `count` copies of FOLDER/stdin, each with another bit flipped, those of the first
/// word first. True if it writes FOLDER/stdout on the file itself and something else on each copy.
pub fn flip(program: &str, folder: &Path, count: usize) -> bool {
    let mut input = fs::read(folder.join("stdin")).expect("stdin can be read");
    let stdout = fs::read(folder.join("stdout")).expect("stdout can be read");
    let agrees = run(program, &input) == stdout;
    let bytes = meant(&input);
    let mut r = Rng::new(6);
    let mut unseen = 0;
    for k in 0..count {
        let bit = if k < 64 { k } else { bytes[r.below(bytes.len())] * 8 + r.below(8) };
        input[bit / 8] ^= 1 << (bit % 8);
        if run(program, &input) == stdout {
            unseen += 1;
            println!("bit {} of word {} is not seen", bit % 64, bit / 64);
        }
        input[bit / 8] ^= 1 << (bit % 8);
    }
    println!("the file itself: {}", if agrees { "as recorded" } else { "not as recorded" });
    println!("{count} copies with one bit flipped: {unseen} not seen");
    agrees && unseen == 0
}
