//! `compare N SEED PROGRAM [WORD..]`: makes N inputs and compares the program, run with these words, with the model, byte for byte. `--kit` for PROGRAM calls
//! the linked library instead.

use bench::{gen, hex, kit, model, Tally};
use std::io::{ErrorKind, Read, Write};
use std::process::{exit, Command, Stdio};

fn main() {
    let arguments: Vec<String> = std::env::args().skip(1).collect();
    let [inputs, seed, path, words @ ..] = &arguments[..] else { usage() };
    let (Ok(inputs), Ok(seed)) = (inputs.parse::<u64>(), seed.parse::<u64>()) else { usage() };
    if path == "--kit" && kit::RENDER_INTO.is_none() {
        eprintln!("built without the feature kit");
        exit(2);
    }
    let mut tally = Tally::default();
    for index in 0..inputs {
        let input = gen::input(seed, index);
        let expected = model::render(&input);
        tally.count(&expected);
        let found = if path == "--kit" {
            kit::render(&input).expect("the library is linked")
        } else {
            run(path, words, &input).unwrap_or_else(|error| {
                eprintln!("{path}: {error}");
                exit(2)
            })
        };
        if found != expected {
            println!("differs: seed {seed}, index {index}\ninput {}\nmodel {}\nfound {}", hex(&input), hex(&expected), hex(&found));
            exit(1);
        }
    }
    println!("{inputs} inputs, all alike\n{tally}");
}

fn usage() -> ! {
    eprintln!("compare N SEED PROGRAM [WORD..], or compare N SEED --kit");
    exit(2)
}

/// Runs the program on the input. No output is as long as a pipe holds, so the input can be written before the output is read.
fn run(path: &str, words: &[String], input: &[u8]) -> std::io::Result<Vec<u8>> {
    let mut child = Command::new(path).args(words).stdin(Stdio::piped()).stdout(Stdio::piped()).spawn()?;
    let mut stdin = child.stdin.take().expect("it is piped");
    match stdin.write_all(input) {
        // It may stop reading once it knows its answer.
        Err(error) if error.kind() != ErrorKind::BrokenPipe => return Err(error),
        _ => drop(stdin),
    }
    let mut output = Vec::new();
    child.stdout.take().expect("it is piped").read_to_end(&mut output)?;
    let status = child.wait()?;
    if !status.success() {
        return Err(std::io::Error::other(format!("it ended with {status}")));
    }
    Ok(output)
}
