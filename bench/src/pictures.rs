//! Fixed inputs whose drawing is timed.

use crate::draft::{Draft, Piece, ACROSS, CLIP_HI, CLIP_LO, DOWN, FAR, HEIGHT, ORIGIN, RAY, SURFACE_SHIFT, WIDTH};
use crate::gen::Random;

/// A picture from above, over a surface with waves.
pub fn picture(width: i32, height: i32, far: i32, scene: Vec<Piece>) -> Vec<u8> {
    drawn(width, height, far, scene).bytes()
}

fn drawn(width: i32, height: i32, far: i32, scene: Vec<Piece>) -> Draft {
    let mut draft = Draft::example();
    draft.put(ORIGIN, [0, 0, far / 2]);
    (draft.job[RAY], draft.job[ACROSS], draft.job[DOWN]) = (12, 22, 16);
    (draft.job[WIDTH], draft.job[HEIGHT], draft.job[FAR]) = (width, height, far);
    draft.put(CLIP_LO, [-16_384; 3]);
    draft.put(CLIP_HI, [16_383; 3]);
    // Under a part of each picture: its first eight rows.
    draft.put(SURFACE_SHIFT, [0, -40, -far / 2 + 40]);
    (draft.width, draft.depth) = (48, 48);
    draft.heights = (0..48 * 48).map(|column| column % 48 % 7 - column / 48 % 5).collect();
    draft.scene = scene;
    draft
}

/// A leaf about the rays of the pictures.
fn leaf(random: &mut Random) -> Piece {
    let centre = [random.range(-60, 120), random.range(-60, 120), random.range(-1_500, 450)];
    if random.percent(50) {
        Piece::ball(centre, random.range(5, 60))
    } else {
        Piece::cuboid(centre, centre.map(|c| c + random.range(5, 40)))
    }
}

/// So many leaves, close together, united one after another.
pub fn leaves(count: usize) -> Vec<Piece> {
    let random = &mut Random::new(40);
    let leaves: Vec<Piece> = (0..count).map(|_| leaf(random)).collect();
    chained(&leaves)
}

/// So many small leaves, spread over all that a picture of 64 by 64 and far 4,095 shows: its rays pass near many, and hit some.
pub fn spread(count: usize) -> Vec<Piece> {
    let random = &mut Random::new(41);
    let mut leaf = || {
        let centre = [random.range(-30, 94), random.range(-30, 94), random.range(-1_950, 1_950)];
        if random.percent(50) {
            Piece::ball(centre, random.range(3, 16))
        } else {
            Piece::cuboid(centre, centre.map(|c| c + random.range(4, 24)))
        }
    };
    (0..count).map(|_| leaf()).collect()
}

/// The leaves, united one after another.
pub fn chained(leaves: &[Piece]) -> Vec<Piece> {
    let united = |leaf: &Piece| [leaf.clone(), Piece::unite()];
    leaves[..1].iter().cloned().chain(leaves[1..].iter().flat_map(united)).collect()
}

/// The leaves, united half with half.
pub fn balanced(leaves: &[Piece]) -> Vec<Piece> {
    if leaves.len() == 1 {
        return leaves.to_vec();
    }
    let (front, back) = leaves.split_at(leaves.len() / 2);
    [balanced(front), balanced(back), vec![Piece::unite()]].concat()
}

/// The leaves, united one after another, each fourth thickened and another fourth shifted.
pub fn layered(leaves: &[Piece]) -> Vec<Piece> {
    let mut pieces = Vec::new();
    for (at, leaf) in leaves.iter().enumerate() {
        pieces.push(leaf.clone());
        match at % 4 {
            1 => pieces.push(Piece::shift([3, -2, 5])),
            3 => pieces.push(Piece::thicken(2)),
            _ => {}
        }
        if at > 0 {
            pieces.push(Piece::unite());
        }
    }
    pieces
}

/// A scene of so many nodes: leaves and unites, with a shift or a thicken for each fourth node, over two.
pub fn scene(nodes: usize) -> Vec<Piece> {
    let random = &mut Random::new(7);
    let mut pieces = vec![leaf(random)];
    while pieces.len() < nodes {
        if nodes - pieces.len() >= 2 && pieces.len() % 4 != 3 {
            pieces.push(leaf(random));
            pieces.push(Piece::unite());
        } else if random.percent(50) {
            pieces.push(Piece::shift([random.range(-3, 3), random.range(-3, 3), random.range(-3, 3)]));
        } else {
            pieces.push(Piece::thicken(random.range(0, 1)));
        }
    }
    pieces
}

/// The input that takes most room: all nodes that a scene may have, all columns, all pixels.
pub fn largest() -> Vec<u8> {
    let mut draft = drawn(64, 64, 4_095, scene(256));
    (draft.width, draft.depth) = (64, 64);
    draft.heights = (0..64 * 64).map(|column| column % 64 % 7 - column / 64 % 5).collect();
    draft.bytes()
}
