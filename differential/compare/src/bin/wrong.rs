//! A program that is wrong on purpose, to see the comparison fail: it replays as the model does,
//! but takes a longer form of a frame's length for the number.

use std::io::{Read, Write};

fn main() -> std::io::Result<()> {
    let mut input = Vec::new();
    std::io::stdin().read_to_end(&mut input)?;
    let mut rest = &input[..];
    let mut output = Vec::new();
    while rest.len() >= 16 {
        let number = |at: usize| u64::from_le_bytes(rest[at..at + 8].try_into().unwrap());
        let (length, room) = (number(0) as usize, number(8) as usize);
        let tape = &rest[16..16 + length];
        rest = &rest[16 + length..];
        let mut answers = vec![0; room];
        let mut done = model::replay(tape, &mut answers);
        let mut check = model::tape_check(tape);
        if done.status == 2 {
            (done.status, check) = (0, 0);
        }
        writeln!(output, "{} {} {} {} {check}", done.status, done.place, done.written, done.calls)?;
        output.extend(&answers[..done.written]);
    }
    std::io::stdout().write_all(&output)
}
