//! `sample`: a small fixed sample, a line for each input: the input's bytes in hexadecimal, a space, the output's. The line of the empty input starts with
//! the space.

use bench::{answer, cases, gen, hex, model, Answer};

/// How many generated images go after the cases.
const DRAWN: usize = 6;
/// The most bytes of one of those inputs.
const SHORT: usize = 400;

fn main() {
    let written = cases::cases().into_iter().map(|case| case.input);
    let drawn = (0..).map(|index| gen::lawful_input(1, index)).filter(|input| input.len() <= SHORT && varied(&model::render(input)));
    for input in written.chain(drawn.take(DRAWN)) {
        println!("{} {}", hex(&input), hex(&model::render(&input)));
    }
}

/// Whether an output is a small image with hits and misses of several probes.
fn varied(output: &[u8]) -> bool {
    let pixels = output.chunks_exact(4).skip(2);
    let has = |kind: u8| pixels.clone().any(|word| word[3] >> 4 == kind && word[0] > 2);
    answer(output) == Answer::Image && output.len() <= 200 && has(11) && has(12)
}
