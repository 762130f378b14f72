//! `picture WHICH`: writes a fixed input. WHICH is `largest`, or `leaves N`, `spread N`, `balanced N`, `layered N` or `nodes N` for a picture of 64 by 64 over
//! so many.

use bench::pictures::{balanced, chained, largest, layered, leaves, picture, scene, spread};
use std::io::Write;

fn main() -> std::io::Result<()> {
    let arguments: Vec<String> = std::env::args().skip(1).collect();
    let words: Vec<&str> = arguments.iter().map(String::as_str).collect();
    let input = match words[..] {
        ["largest"] => largest(),
        ["leaves", count] => picture(64, 64, 4_095, leaves(number(count))),
        ["spread", count] => picture(64, 64, 4_095, chained(&spread(number(count)))),
        ["balanced", count] => picture(64, 64, 4_095, balanced(&spread(number(count)))),
        ["layered", count] => picture(64, 64, 4_095, layered(&spread(number(count)))),
        ["nodes", count] => picture(64, 64, 1_023, scene(number(count))),
        _ => usage(),
    };
    std::io::stdout().write_all(&input)
}

fn number(text: &str) -> usize {
    text.parse().unwrap_or_else(|_| usage())
}

fn usage() -> ! {
    eprintln!("picture largest, or picture leaves N, spread N, balanced N, layered N or nodes N");
    std::process::exit(2)
}
