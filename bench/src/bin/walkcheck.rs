//! `walkcheck N SEED`: makes N inputs and compares each accepted one's image with the plain walk, pixel by pixel, and each flat one's output with those of the
//! flat walk and marches.

use bench::{alike_but_probes, flat, gen, kit, model, walk};
use std::process::exit;

fn main() {
    let mut arguments = std::env::args().skip(1);
    let mut number = || arguments.next().and_then(|text| text.parse::<u64>().ok());
    let (Some(inputs), Some(seed)) = (number(), number()) else {
        eprintln!("walkcheck N SEED");
        exit(2);
    };
    let (mut images, mut hits, mut misses, mut probes, mut flats) = (0u64, 0u64, 0u64, 0u64, 0u64);
    for index in 0..inputs {
        let bytes = gen::input(seed, index);
        let output = model::render(&bytes);
        let words: Vec<u32> = output.chunks_exact(4).map(|word| u32::from_le_bytes([word[0], word[1], word[2], word[3]])).collect();
        if words[0] >> 28 != 10 {
            continue;
        }
        let input = model::Input::read(&bytes).expect("an image is of a lawful input");
        let depths = walk::walk(&input);
        images += 1;
        let header = [0xA000_0000 | (input.job.width as u32) << 16 | input.job.height as u32, 0x2000_0000 | input.job.far as u32];
        let mut same = words[..2] == header && words.len() == 2 + depths.len();
        for (word, depth) in words[2..].iter().zip(&depths) {
            let most = depth.unwrap_or(input.job.far) as u32 + 1;
            same &= (1..=most).contains(&(word & 0xFFFF));
            same &= match depth {
                Some(depth) => word >> 16 == 0xB000 | *depth as u32,
                None => word >> 16 == 0xC000,
            };
            *(if depth.is_some() { &mut hits } else { &mut misses }) += 1;
            probes += u64::from(word & 0xFFFF);
        }
        let flat = flat_alike(&bytes, &output);
        same &= flat != Some(false);
        flats += u64::from(flat.is_some());
        if !same {
            println!("differs: seed {seed}, index {index}\ninput {}\nimage {}\nwalk {depths:?}", bench::hex(&bytes), bench::hex(&output));
            exit(1);
        }
    }
    println!("{inputs} inputs, {images} images, {flats} of them flat: {hits} hits and {misses} misses, {probes} probes, all as walked");
}

/// Whether the flat walk and both flat marches draw the image; None where the scene is not flat.
fn flat_alike(input: &[u8], image: &[u8]) -> Option<bool> {
    let mut output = [0; kit::MOST_OUTPUT];
    let length = flat::walk_into(input, &mut output)?;
    let mut same = alike_but_probes(&output[..length], image);
    for march_into in [flat::march_into, flat::march_eights_into] {
        let length = march_into(input, &mut output)?;
        same &= output[..length] == *image;
    }
    Some(same)
}
