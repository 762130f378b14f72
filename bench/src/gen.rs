//! A seeded generator of inputs, lawful and damaged.
//!
//! A lawful draft comes first: a scene somewhere, a view that looks at it, a clip box about it and a surface under it. Then, most of the time, some damage:
//! to the draft, to the words or to the bytes. Damage may come twice or three times, so that the order of the checks matters.

use crate::draft::{
    self, Draft, Piece, ACROSS, BALL, BOX, CLIP_HI, CLIP_LO, DOWN, FAR, GUARD, HEIGHT, MEET, ORIGIN, RAY, SHIFT, SURFACE_SHIFT, THICKEN, UNITE, WIDTH,
};

type Point = [i32; 3];

/// A splitmix64 sequence.
#[derive(Clone, Debug)]
pub struct Random(u64);

impl Random {
    pub fn new(seed: u64) -> Random {
        Random(seed)
    }

    /// The sequence of one input: the same seed and index always give the same.
    pub fn of(seed: u64, index: u64) -> Random {
        let mut random = Random(seed);
        Random(random.word() ^ index.wrapping_mul(0xD6E8_FEB8_6659_FD93))
    }

    pub fn word(&mut self) -> u64 {
        self.0 = self.0.wrapping_add(0x9E37_79B9_7F4A_7C15);
        let mut z = self.0;
        z = (z ^ z >> 30).wrapping_mul(0xBF58_476D_1CE4_E5B9);
        z = (z ^ z >> 27).wrapping_mul(0x94D0_49BB_1331_11EB);
        z ^ z >> 31
    }

    /// A number below `n`, which is above 0.
    pub fn below(&mut self, n: usize) -> usize {
        (self.word() % n as u64) as usize
    }

    /// A number from `lo` to `hi`, both possible.
    pub fn range(&mut self, lo: i32, hi: i32) -> i32 {
        lo + self.below((hi - lo) as usize + 1) as i32
    }

    /// True so many times in a hundred.
    pub fn percent(&mut self, times: usize) -> bool {
        self.below(100) < times
    }

    pub fn pick<T: Copy>(&mut self, list: &[T]) -> T {
        list[self.below(list.len())]
    }
}

/// The input of this seed and index.
pub fn input(seed: u64, index: u64) -> Vec<u8> {
    let random = &mut Random::of(seed, index);
    let mut draft = lawful(random);
    let times = random.pick(&[0, 0, 0, 0, 0, 0, 0, 0, 1, 1, 1, 1, 1, 1, 1, 1, 1, 2, 2, 3]);
    // How many of these go to the draft, the words and the bytes.
    let mut damages = [0; 3];
    for _ in 0..times {
        damages[random.pick(&[0, 0, 0, 0, 1, 1, 2, 2])] += 1;
    }
    for _ in 0..damages[0] {
        damage_draft(random, &mut draft);
    }
    let mut parts = draft.parts();
    for _ in 0..damages[1] {
        damage_words(random, &mut parts);
    }
    let mut bytes = draft::bytes(&parts);
    for _ in 0..damages[2] {
        damage_bytes(random, &mut bytes);
    }
    bytes
}

/// A lawful input of this seed and index.
pub fn lawful_input(seed: u64, index: u64) -> Vec<u8> {
    lawful(&mut Random::of(seed, index)).bytes()
}

// Lawful drafts.

/// Where the scene is.
#[derive(Clone, Copy)]
struct Setting {
    centre: Point,
    extent: i32,
}

impl Setting {
    fn new(random: &mut Random) -> Setting {
        let extent = random.pick(&[1, 3, 8, 8, 20, 20, 20, 60, 60, 200, 1_000, 4_000, 16_383]);
        let centre = match random.below(10) {
            0 => [0; 3].map(|_: i32| random.range(-16_384, 16_383)),
            1 => [0; 3].map(|_: i32| random.pick(&[-16_384, 0, 16_383])),
            2..=4 => [0; 3],
            _ => [0; 3].map(|_: i32| random.range(-300, 300)),
        };
        Setting { centre, extent }
    }

    /// A coordinate's limit.
    fn clamp(n: i32) -> i32 {
        n.clamp(-16_384, 16_383)
    }

    /// A point about the centre, now and then at the end of the range.
    fn point(&self, random: &mut Random) -> Point {
        self.centre.map(|c| match random.below(200) {
            0 => -16_384,
            1 => 16_383,
            _ => Setting::clamp(c + random.range(-self.extent, self.extent)),
        })
    }

    /// A number from 0 that goes with the extent, small ones more often, and at most `most`.
    fn size(&self, random: &mut Random, most: i32) -> i32 {
        let limit = match random.below(50) {
            0 => return most,
            1 => return 0,
            2..=25 => self.extent / 6,
            26..=40 => self.extent / 2,
            _ => self.extent,
        };
        random.range(0, limit.min(most))
    }

    fn leaf(&self, random: &mut Random) -> Piece {
        let at = self.point(random);
        if random.percent(55) {
            let radius = self.size(random, 16_383);
            Piece::ball(at, radius)
        } else {
            let to = at.map(|c| Setting::clamp(c + self.size(random, 16_383)));
            Piece::cuboid(at, to)
        }
    }

    /// A shift that goes with the extent.
    fn shift(&self, random: &mut Random) -> Piece {
        Piece::shift([0; 3].map(|_: i32| {
            let size = self.size(random, 16_383) / random.pick(&[1, 6, 6, 6]);
            size * random.pick(&[-1, 0, 0, 1])
        }))
    }

    fn thicken(&self, random: &mut Random) -> Piece {
        Piece::thicken(self.size(random, 1_023) / random.pick(&[1, 4]))
    }
}

/// A scene of so many nodes with one standing at the end; without meets where it is to be exact.
fn scene(random: &mut Random, setting: Setting, nodes: usize, exact: bool) -> Vec<Piece> {
    let mut pieces = Vec::with_capacity(nodes);
    // Whether each standing node is exact.
    let mut standing: Vec<bool> = Vec::new();
    while pieces.len() < nodes {
        let left = nodes - pieces.len();
        let may_take_two = standing.len() >= 2;
        let must_take_two = may_take_two && left == standing.len() - 1;
        let may_add = standing.is_empty() || left > standing.len();
        if must_take_two || may_take_two && random.percent(35) {
            let below = [standing.pop(), standing.pop()];
            let both = below == [Some(true), Some(true)];
            let meet = !exact && random.percent(15);
            standing.push(both && !meet);
            pieces.push(if meet { Piece::meet() } else { Piece::unite() });
        } else if may_add && (standing.is_empty() || random.percent(60)) {
            standing.push(true);
            pieces.push(setting.leaf(random));
        } else if standing.last() == Some(&true) && random.percent(40) {
            pieces.push(setting.thicken(random));
        } else if total_shift(&pieces) < 900_000 {
            pieces.push(setting.shift(random));
        } else {
            pieces.push(Piece::shift([0; 3]));
        }
    }
    pieces
}

/// Shifts to and fro whose greatest parts add to `total`.
fn shifts(random: &mut Random, mut total: i32) -> Vec<Piece> {
    let mut pieces = Vec::new();
    let mut sign = 1;
    while total > 0 {
        let part = total.min(if random.percent(85) { 16_383 } else { random.range(12_000, 16_383) });
        let mut v = [0; 3].map(|_: i32| if random.percent(30) { random.range(-part, part) } else { 0 });
        v[random.pick(&[0, 0, 0, 1, 2])] = sign * part;
        pieces.push(Piece::shift(v));
        sign = -sign;
        total -= part;
    }
    pieces
}

/// The sum of the shifts' greatest parts: no reach falls by more.
fn total_shift(pieces: &[Piece]) -> i32 {
    pieces.iter().filter(|piece| piece.kind == SHIFT).map(|piece| piece.numbers.iter().map(|n| n.abs()).max().unwrap_or(0)).sum()
}

fn step(row: i32) -> Point {
    [row / 9 - 1, row / 3 % 3 - 1, row % 3 - 1]
}

fn row(random: &mut Random) -> i32 {
    let row = random.range(0, 25);
    row + i32::from(row >= 13)
}

fn lawful(random: &mut Random) -> Draft {
    let setting = Setting::new(random);
    let nodes = match random.below(100) {
        0..=14 => 1,
        15..=59 => random.range(2, 8) as usize,
        60..=89 => random.range(9, 40) as usize,
        90..=97 => random.range(41, 255) as usize,
        _ => 256,
    };
    let exact = random.percent(55);
    let mut pieces = scene(random, setting, nodes, exact);
    if pieces.len() < 150 && random.percent(4) {
        // A reach that is just enough, or a good deal less than a leaf's.
        let most = 1_048_576 - 32_767 - total_shift(&pieces);
        let total = if random.percent(50) { most - random.range(0, 2) } else { random.range(0, most.max(0)) };
        pieces.extend(shifts(random, total));
    }
    let mut draft = Draft { job: [0; 20], scene: pieces, count: None, width: 1, depth: 1, heights: vec![] };
    let guarded = !draft.scene.iter().any(|piece| piece.kind == MEET) && random.percent(50);
    draft.job[GUARD] = if guarded { setting.size(random, 1_023).max(random.range(0, 1)) } else { 0 };
    surface(random, setting, &mut draft);
    clip(random, setting, &mut draft);
    view(random, setting, &mut draft);
    draft
}

fn surface(random: &mut Random, setting: Setting, draft: &mut Draft) {
    let mut side = || match random.below(20) {
        0 => 64,
        1 => 1,
        2..=4 => random.range(1, 64),
        _ => random.range(1, 8),
    };
    let (width, depth) = (side(), side());
    let bump = random.pick(&[0, 1, 3, 10, 60]);
    let base = match random.below(8) {
        0 => -32_768,
        1 => 32_767,
        2 | 3 => setting.centre[2] - setting.extent,
        _ => setting.centre[2] + random.range(-setting.extent, setting.extent),
    };
    draft.heights = (0..width * depth)
        .map(|_| match random.below(100) {
            0 => random.range(-32_768, 32_767),
            _ => (base + random.range(-bump, bump)).clamp(-32_768, 32_767),
        })
        .collect();
    draft.width = width as u32;
    draft.depth = depth as u32;
    let shift = match random.below(10) {
        0 => [0; 3].map(|_: i32| random.range(-16_383, 16_383)),
        1 => [0; 3].map(|_: i32| random.pick(&[-16_383, 0, 16_383])),
        2 => [0; 3],
        _ => [setting.centre[0] - width / 2, setting.centre[1] - depth / 2, random.range(-bump, bump)],
    };
    draft.put(SURFACE_SHIFT, shift.map(|n| n.clamp(-16_383, 16_383)));
}

fn clip(random: &mut Random, setting: Setting, draft: &mut Draft) {
    if random.percent(40) {
        draft.put(CLIP_LO, [-16_384; 3]);
        draft.put(CLIP_HI, [16_383; 3]);
        return;
    }
    for axis in 0..3 {
        let (a, b) = match random.below(30) {
            0 => (random.range(-16_384, 16_383), random.range(-16_384, 16_383)),
            1 => (setting.centre[axis], setting.centre[axis]),
            _ => {
                let wide = random.range(setting.extent / 4, 3 * setting.extent);
                (setting.centre[axis] - wide, setting.centre[axis] + random.range(wide / 3, wide))
            }
        };
        draft.job[CLIP_LO + axis] = Setting::clamp(a.min(b));
        draft.job[CLIP_HI + axis] = Setting::clamp(a.max(b));
    }
}

/// A point to look at: about the centre, or in a leaf, as far as no shift moves it.
fn target(random: &mut Random, setting: Setting, draft: &Draft) -> Point {
    let near = Setting { centre: setting.centre, extent: setting.extent / 2 };
    let leaves: Vec<&Piece> = draft.scene.iter().filter(|piece| piece.takes() == 0).collect();
    match *random.pick(&leaves).numbers {
        _ if random.percent(25) => near.point(random),
        [x, y, z, ..] => [x, y, z],
        _ => near.centre,
    }
}

/// A view that looks at the scene, not too dear to draw.
fn view(random: &mut Random, setting: Setting, draft: &mut Draft) {
    let [ray, across, down] = [0; 3].map(|_: i32| row(random));
    draft.job[RAY] = ray;
    draft.job[ACROSS] = across;
    draft.job[DOWN] = down;
    let before = match random.below(10) {
        0 => 0,
        1 => random.range(0, 4_095),
        _ => random.range(0, (2 * setting.extent).min(4_000)),
    };
    let far = match random.below(10) {
        0 => random.range(0, 4_095),
        1 => random.pick(&[0, 1, 63, 64, 65, 4_095]),
        _ => before + random.range(0, 2 * setting.extent),
    };
    draft.job[FAR] = far.min(4_095);
    let mut side = || match random.below(10) {
        0 => random.range(1, 64),
        1 => random.pick(&[1, 64]),
        _ => random.range(1, 8),
    };
    let (mut width, mut height) = (side(), side());
    let dear = random.pick(&[100_000, 100_000, 100_000, 100_000, 100_000, 100_000, 100_000, 1_000_000]);
    let a_pixel = (draft.job[FAR] as usize / 16 + 4) * (draft.scene.len() + 6);
    while width * height > 1 && (width * height) as usize * a_pixel > dear {
        width = (width * 3 / 4).max(1);
        height = (height * 3 / 4).max(1);
    }
    draft.job[WIDTH] = width;
    draft.job[HEIGHT] = height;
    let target = target(random, setting, draft);
    let origin = if random.percent(4) {
        [0; 3].map(|_: i32| random.pick(&[-16_384, 0, 16_383]))
    } else {
        [0, 1, 2].map(|axis| Setting::clamp(target[axis] - before * step(ray)[axis] - width / 2 * step(across)[axis] - height / 2 * step(down)[axis]))
    };
    draft.put(ORIGIN, origin);
}

// Damage.

/// A number outside the range, often by one.
fn outside(random: &mut Random, lo: i32, hi: i32) -> i32 {
    let below = (lo > -32_768).then(|| match random.below(3) {
        0 => -32_768,
        1 => random.range(-32_768, lo - 1),
        _ => lo - 1,
    });
    let above = (hi < 32_767).then(|| match random.below(3) {
        0 => 32_767,
        1 => random.range(hi + 1, 32_767),
        _ => hi + 1,
    });
    match (below, above) {
        (Some(n), None) | (None, Some(n)) => n,
        (Some(a), Some(b)) => random.pick(&[a, b]),
        (None, None) => lo,
    }
}

/// The range of the number at a place of a job that is no row.
fn job_range(place: usize) -> (i32, i32) {
    match place {
        WIDTH | HEIGHT => (1, 64),
        FAR => (0, 4_095),
        GUARD => (0, 1_023),
        SURFACE_SHIFT..CLIP_LO => (-16_383, 16_383),
        _ => (-16_384, 16_383),
    }
}

/// The range of a number of a node.
fn node_range(kind: u32, at: usize) -> (i32, i32) {
    match (kind, at) {
        (BALL, 3) => (0, 16_383),
        (SHIFT, _) => (-16_383, 16_383),
        (THICKEN, _) => (0, 1_023),
        _ => (-16_384, 16_383),
    }
}

/// A node of any kind, with numbers of which some may be out of range, and boxes that may be crossed.
fn wild(random: &mut Random) -> Piece {
    let kind = random.pick(&[BALL, BOX, BOX, UNITE, MEET, SHIFT, SHIFT, THICKEN, THICKEN]);
    let numbers = match kind {
        BALL => 4,
        BOX => 6,
        SHIFT => 3,
        THICKEN => 1,
        _ => 0,
    };
    let numbers = (0..numbers)
        .map(|at| {
            let (lo, hi) = node_range(kind, at);
            if random.percent(8) {
                outside(random, lo, hi)
            } else {
                random.range(lo, hi)
            }
        })
        .collect();
    Piece { kind, numbers }
}

/// Ends a scene of any pieces so that the last node is not exact.
fn make_inexact(random: &mut Random, draft: &mut Draft) {
    if draft.scene.len() > 254 {
        draft.scene = vec![Piece::ball([0; 3], 5)];
    }
    let at = random.range(-50, 50);
    draft.scene.push(Piece::ball([at; 3], 60));
    draft.scene.push(Piece::meet());
}

/// Lengthens the scene to so many nodes, by shifts and thickens that matter little, or by leaves.
fn pad(random: &mut Random, draft: &mut Draft, nodes: usize) {
    let exact = !draft.scene.iter().any(|piece| piece.kind == MEET);
    let leaves = random.percent(20);
    while draft.scene.len() < nodes {
        draft.scene.push(match random.below(3) {
            _ if leaves => Piece::cuboid([-2; 3], [2; 3]),
            0 if exact => Piece::thicken(random.range(0, 1)),
            _ => Piece::shift([random.range(-1, 1), 0, 0]),
        });
    }
}

/// Shortens a scene to one leaf where too few nodes are left for so many more.
fn make_room(draft: &mut Draft, more: usize) {
    if draft.scene.len() + more > 256 {
        draft.scene.truncate(1);
    }
}

fn damage_draft(random: &mut Random, draft: &mut Draft) {
    let any_place = random.below(draft.scene.len() + 1);
    match random.below(22) {
        // 4 in a job.
        0 => {
            let place = random.pick(&[1, 2, 3, 7, 7, 8, 8, 9, 9, 10, 10, 11, 12, 13, 14, 15, 16, 17, 18, 19]);
            let (lo, hi) = job_range(place);
            draft.job[place] = outside(random, lo, hi);
        }
        // 5.
        1 | 2 => {
            let bad = outside(random, 0, 26);
            draft.job[random.pick(&[RAY, ACROSS, DOWN])] = random.pick(&[13, 13, bad]);
        }
        // 6 in a job.
        3 => {
            let axis = random.below(3);
            let lo = draft.job[CLIP_LO + axis].max(-16_383);
            draft.job[CLIP_LO + axis] = lo;
            draft.job[CLIP_HI + axis] = if random.percent(50) { lo - 1 } else { random.range(-16_384, lo - 1) };
        }
        // 6 in a scene.
        4 => {
            let boxes: Vec<usize> = (0..draft.scene.len()).filter(|&at| draft.scene[at].kind == BOX).collect();
            let at = if boxes.is_empty() { 0 } else { random.pick(&boxes) };
            let axis = random.below(3);
            let mut piece = Piece::cuboid([-3; 3], [3; 3]);
            if !boxes.is_empty() {
                piece = draft.scene[at].clone();
            }
            piece.numbers[axis] = piece.numbers[axis].max(-16_383);
            piece.numbers[axis + 3] = piece.numbers[axis] - 1;
            if draft.scene.is_empty() {
                draft.scene.push(piece);
            } else {
                draft.scene[at] = piece;
            }
        }
        // 4 in a scene.
        5 => {
            let numbered: Vec<usize> = (0..draft.scene.len()).filter(|&at| !draft.scene[at].numbers.is_empty()).collect();
            if !numbered.is_empty() {
                let piece = &mut draft.scene[random.pick(&numbered)];
                let at = random.below(piece.numbers.len());
                let (lo, hi) = node_range(piece.kind, at);
                piece.numbers[at] = outside(random, lo, hi);
            }
        }
        // 8.
        6 | 7 => {
            let more = random.range(0, 3) as usize;
            pad(random, draft, 257 + more);
        }
        // 9.
        8 | 9 => {
            let (place, piece) = match random.below(5) {
                0 => (0, Piece::shift([1, 2, 3])),
                1 => (0, Piece::thicken(3)),
                2 => (0, random.pick(&[Piece::unite as fn() -> Piece, Piece::meet])()),
                3 => (1.min(draft.scene.len()), random.pick(&[Piece::unite as fn() -> Piece, Piece::meet])()),
                _ => (draft.scene.len(), random.pick(&[Piece::unite as fn() -> Piece, Piece::meet])()),
            };
            draft.scene.insert(place, piece);
        }
        // 10.
        10 | 11 => {
            if random.percent(50) {
                make_inexact(random, draft);
                draft.scene.push(Piece::thicken(random.range(0, 1_023)));
            } else {
                let meets: Vec<usize> = (0..draft.scene.len()).filter(|&at| draft.scene[at].kind == MEET).collect();
                let place = if meets.is_empty() { any_place } else { random.pick(&meets) + 1 };
                draft.scene.insert(place, Piece::thicken(random.range(0, 9)));
            }
        }
        // 11.
        12 | 13 => {
            make_room(draft, 100);
            let most = 1_048_576 - total_shift(&draft.scene);
            let total = if random.percent(50) { most + random.range(0, 2) } else { random.range(most - 20_000, most + 40_000) };
            let chain = shifts(random, total);
            draft.scene.extend(chain);
            if random.percent(20) {
                draft.scene.push(wild(random));
            }
        }
        // 16.
        14 | 15 => {
            make_room(draft, 100);
            let most = 1_048_576 - 32_767 - total_shift(&draft.scene);
            let total = if random.percent(50) { most + random.range(0, 2) } else { random.range(most, most + 32_767) };
            let chain = shifts(random, total);
            draft.scene.extend(chain);
            // With 15 too.
            if random.percent(20) {
                make_inexact(random, draft);
                draft.job[GUARD] = 1;
            }
        }
        // 12 at the end.
        16 => {
            if random.percent(50) {
                draft.scene.push(Piece::ball([0; 3], 1));
            } else if let Some(at) = draft.scene.iter().rposition(|piece| piece.takes() == 2) {
                draft.scene.remove(at);
            } else {
                draft.scene.insert(any_place, Piece::ball([9; 3], 1));
            }
        }
        // 15.
        17 | 18 => {
            if !draft.scene.iter().any(|piece| piece.kind == MEET) {
                make_inexact(random, draft);
            }
            draft.job[GUARD] = random.pick(&[1, 1, 7, 1_023]);
            // With 14 too.
            if random.percent(15) {
                draft.heights.push(0);
            }
        }
        // 13.
        19 => {
            let width = random.pick(&[0, 65, 128, 4_095]);
            let depth = random.pick(&[0, 65, 256, 65_535, 32_768 + 4]);
            match random.below(3) {
                0 => draft.width = width,
                1 => draft.depth = depth,
                _ => (draft.width, draft.depth) = (width, depth),
            }
        }
        // A last node with several faults at once, and a count that may cut it.
        20 => {
            if random.percent(30) {
                make_inexact(random, draft);
            }
            if random.percent(30) {
                let nodes = random.pick(&[255, 256, 256]);
                pad(random, draft, nodes);
            }
            if random.percent(20) {
                draft.scene.clear();
            }
            let piece = wild(random);
            let cut = random.below(piece.numbers.len() + 1);
            draft.scene.push(piece);
            draft.count = Some((draft.scene_words() - cut) as u32);
        }
        // Nodes without regard to what stands.
        _ => {
            let nodes = random.pick(&[1, 2, 3, 5, 9, 20, 260]);
            draft.scene = (0..nodes).map(|_| wild(random)).collect();
        }
    }
}

fn damage_words(random: &mut Random, parts: &mut [Vec<u32>; 3]) {
    let part = random.below(3);
    let place = if random.percent(20) { 0 } else { random.below(parts[part].len().max(1)) };
    let Some(word) = parts[part].get_mut(place) else { return };
    match random.below(10) {
        // The kind.
        0 | 1 => *word = *word & 0x0FFF_FFFF | (random.below(16) as u32) << 28,
        // A bit that is not named, mostly.
        2..=4 => {
            *word |= match *word >> 28 {
                2 => 1 << random.range(16, 27),
                _ => 1 << random.range(0, 27),
            }
        }
        // A number.
        5 => *word = *word & 0xFFFF_0000 | u32::from(random.word() as u16),
        // The count of the scene.
        6 | 7 => {
            let Some(start) = parts[1].first_mut() else { return };
            let count = *start & 0x0FFF_FFFF;
            let other = match random.below(8) {
                0 | 1 => 0,
                2 => random.pick(&[1_792, 1_793, 1_793]),
                3 => random.pick(&[0x0FFF_FFFF, 0x0800_0001, 0x0001_0000 + count]),
                4 => random.range(1_793, 5_000) as u32,
                5 => random.range(1, 1_792) as u32,
                _ => (count as i32 + random.pick(&[-7, -5, -4, -2, -1, 1, 2, 4, 5, 7])).max(0) as u32,
            };
            *start = *start & 0xF000_0000 | other;
        }
        // A word more or less.
        8 => {
            let word = *word;
            match random.below(3) {
                0 => drop(parts[part].remove(place)),
                1 => parts[part].insert(place, word),
                _ => parts[part].insert(place, random.word() as u32),
            }
        }
        // Any word.
        _ => *word = random.word() as u32,
    }
}

fn damage_bytes(random: &mut Random, bytes: &mut Vec<u8>) {
    let length = bytes.len();
    match random.below(12) {
        // An end too soon.
        0..=4 => {
            let end = match random.below(6) {
                0 => random.below(length.min(84) + 1),
                1 => random.below(length.min(8) + 1),
                2 => length - random.below(length.min(9) + 1),
                _ => random.below(length + 1),
            };
            bytes.truncate(end);
        }
        // Bytes left.
        5..=8 => {
            let more = random.pick(&[1, 1, 2, 3, 4, 4, 8, 100, 70_000]);
            if more == 70_000 && random.percent(90) {
                return bytes.push(0);
            }
            bytes.extend((0..more).map(|_| random.word() as u8));
        }
        // Flipped bits.
        9 => {
            for _ in 0..random.range(1, 4) {
                if length > 0 {
                    bytes[random.below(length)] ^= 1 << random.below(8);
                }
            }
        }
        // A byte more or less.
        10 => {
            if length > 0 && random.percent(50) {
                bytes.remove(random.below(length));
            } else {
                bytes.insert(random.below(length + 1), random.word() as u8);
            }
        }
        // Noise.
        _ => {
            let from = if random.percent(50) { 0 } else { random.below(length + 1) };
            for byte in &mut bytes[from..] {
                *byte = random.word() as u8;
            }
        }
    }
}

#[cfg(test)]
mod tests {
    use super::*;
    use crate::{answer, model, Answer, Tally};

    #[test]
    fn lawful_inputs_are_drawn() {
        for index in 0..500 {
            assert_eq!(answer(&model::render(&lawful_input(3, index))), Answer::Image, "index {index}");
        }
    }

    #[test]
    fn every_refusal_is_frequent() {
        let mut tally = Tally::default();
        for index in 0..4_000 {
            tally.count(&model::render(&input(4, index)));
        }
        assert!(tally.images >= 1_000, "{tally}");
        assert_eq!(tally.unknown, 0, "{tally}");
        for number in 1..=16 {
            assert!(tally.refusals[number] >= 20, "refusal {number} is rare\n{tally}");
        }
        assert!(tally.refusals[17..].iter().all(|count| *count == 0), "{tally}");
    }
}
