//! `speed`: times the model, the flat marches and walk, the plain walk and, where it is linked, the kit's library on fixed inputs.

use bench::pictures::{balanced, chained, layered, leaves, picture, scene, spread};
use bench::{alike_but_probes, clock, flat, kit, model, walk};
use std::hint::black_box;
use std::time::Duration;

/// What is timed.
const NAMES: [&str; 7] = ["kit", "model", "flat", "eights", "flatwalk", "eightwalk", "walk"];
/// The place of the first walk; the plain one is the last.
const FLAT_WALK: usize = 4;
/// The ratios that are printed, each of the first to the second.
const RATIOS: [(usize, usize); 6] = [(0, 1), (0, 2), (0, 3), (4, 0), (5, 0), (6, 0)];

fn main() {
    print!("{:32} {:>5} {:>7}", "input", "hits", "probes");
    NAMES.iter().for_each(|name| print!(" {:>11}", format!("{name} us")));
    RATIOS.iter().for_each(|(a, b)| print!(" {:>12}", format!("{}/{}", NAMES[*a], NAMES[*b])));
    println!();
    measure("1 pixel, far 4095, 1 leaf", &picture(1, 1, 4_095, chained(&spread(1))));
    for count in [1, 10, 40, 127] {
        measure(&format!("64 x 64, far 4095, {count} spread"), &picture(64, 64, 4_095, chained(&spread(count))));
        if count > 1 {
            measure_unwalked(&format!("64 x 64, far 4095, {count} balanced"), &picture(64, 64, 4_095, balanced(&spread(count))));
        }
    }
    measure_unwalked("64 x 64, far 4095, 40 layered", &picture(64, 64, 4_095, layered(&spread(40))));
    measure("64 x 64, far 4095, 40 leaves", &picture(64, 64, 4_095, leaves(40)));
    for nodes in [1, 2, 4, 8, 16, 32, 64, 128, 256] {
        measure(&format!("16 x 16, far 1023, {nodes} nodes"), &picture(16, 16, 1_023, scene(nodes)));
    }
    for (width, height) in [(1, 1), (2, 2), (4, 4), (8, 8), (16, 16), (32, 32), (64, 64)] {
        measure(&format!("{} pixels, far 1023, 16 nodes", width * height), &picture(width, height, 1_023, scene(16)));
    }
}

/// Writes the output for an input into a buffer; None where it cannot.
type Write = fn(&[u8], &mut [u8]) -> Option<usize>;

const KIT: Write = |input, output| kit::RENDER_INTO.map(|render_into| render_into(input, output));

fn measure(name: &str, input: &[u8]) {
    let read = model::Input::read(input).expect("it is drawn");
    measure_with(name, input, Some(Box::new(|| drop(black_box(walk::walk(black_box(&read)))))));
}

/// Without the plain walk, which takes most of the time.
fn measure_unwalked(name: &str, input: &[u8]) {
    measure_with(name, input, None);
}

/// Compares what the input is drawn by, times it and the walk, and prints a line.
fn measure_with(name: &str, input: &[u8], walk: Option<Run>) {
    let image = model::render(input);
    assert_eq!(image[3] >> 4, 10, "{name} is refused");
    let runs = [
        compared(KIT, input, |found| found == image),
        Some(Box::new(|| drop(black_box(model::render(black_box(input))))) as Run),
        compared(flat::march_into, input, |found| found == image),
        compared(flat::march_eights_into, input, |found| found == image),
        compared(flat::walk_into, input, |found| alike_but_probes(found, &image)),
        compared(flat::walk_eights_into, input, |found| alike_but_probes(found, &image)),
        walk,
    ];
    let times = time(runs);
    let words = image[8..].chunks_exact(4);
    let hits = words.clone().filter(|word| word[3] >> 4 == 11).count();
    let probes: u64 = words.map(|word| u64::from(u16::from_le_bytes([word[0], word[1]]))).sum();
    print!("{name:32} {hits:>5} {probes:>7}");
    let show = |number: Option<f64>, width: usize, digits: usize| match number {
        Some(number) => print!(" {number:>width$.digits$}"),
        None => print!(" {:>width$}", "-"),
    };
    let seconds = times.map(|time| time.map(|time| time.as_secs_f64()));
    seconds.iter().for_each(|time| show(time.map(|time| time * 1e6), 11, 1));
    RATIOS.iter().for_each(|(a, b)| show(seconds[*a].zip(seconds[*b]).map(|(a, b)| a / b), 12, 3));
    println!();
}

type Run<'a> = Box<dyn FnMut() + 'a>;

/// A run that writes the output, once its output is as it should be; None where there is none.
fn compared(write: Write, input: &[u8], is_right: impl Fn(&[u8]) -> bool) -> Option<Run<'_>> {
    let mut output = vec![0; kit::MOST_OUTPUT];
    let length = write(input, &mut output)?;
    assert!(is_right(&output[..length]), "two outputs differ");
    Some(Box::new(move || {
        black_box(write(black_box(input), black_box(&mut output)));
    }))
}

/// The runs take turns for at least this long, and so often at least.
const LONG: Duration = Duration::from_millis(400);
const ROUNDS: usize = 5;
/// A walk as slow as this is not run again.
const SLOW: Duration = Duration::from_millis(600);

/// The least processor time of each run. The runs take turns, so that a busy machine slows all alike.
fn time<const N: usize>(mut runs: [Option<Run>; N]) -> [Option<Duration>; N] {
    let whole = clock::busy();
    let mut least = [None; N];
    let mut rounds = 0;
    while rounds < ROUNDS || clock::busy() - whole < LONG {
        for (at, (run, least)) in runs.iter_mut().zip(&mut least).enumerate() {
            let is_done = at >= FLAT_WALK && *least >= Some(SLOW);
            let Some(run) = run.as_mut().filter(|_| !is_done) else { continue };
            let start = clock::busy();
            run();
            let time = clock::busy() - start;
            *least = Some(least.map_or(time, |least| time.min(least)));
        }
        rounds += 1;
    }
    least
}
