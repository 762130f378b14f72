//! An input while it is put together: numbers and nodes, which need not be lawful, and the words they make.

/// The kinds of a scene's nodes.
pub const BALL: u32 = 3;
pub const BOX: u32 = 4;
pub const UNITE: u32 = 5;
pub const MEET: u32 = 6;
pub const SHIFT: u32 = 7;
pub const THICKEN: u32 = 8;

/// The word of a number.
pub fn number(n: i32) -> u32 {
    2 << 28 | u32::from(n as u16)
}

/// A node of a scene.
#[derive(Clone, Debug)]
pub struct Piece {
    pub kind: u32,
    pub numbers: Vec<i32>,
}

impl Piece {
    pub fn ball([x, y, z]: [i32; 3], radius: i32) -> Piece {
        Piece { kind: BALL, numbers: vec![x, y, z, radius] }
    }

    pub fn cuboid(lo: [i32; 3], hi: [i32; 3]) -> Piece {
        Piece { kind: BOX, numbers: [lo, hi].concat() }
    }

    pub fn unite() -> Piece {
        Piece { kind: UNITE, numbers: vec![] }
    }

    pub fn meet() -> Piece {
        Piece { kind: MEET, numbers: vec![] }
    }

    pub fn shift(v: [i32; 3]) -> Piece {
        Piece { kind: SHIFT, numbers: v.to_vec() }
    }

    pub fn thicken(h: i32) -> Piece {
        Piece { kind: THICKEN, numbers: vec![h] }
    }

    /// How many standing nodes it takes.
    pub fn takes(&self) -> usize {
        match self.kind {
            UNITE | MEET => 2,
            SHIFT | THICKEN => 1,
            _ => 0,
        }
    }
}

/// Places of numbers in a job.
pub const ORIGIN: usize = 1;
pub const RAY: usize = 4;
pub const ACROSS: usize = 5;
pub const DOWN: usize = 6;
pub const WIDTH: usize = 7;
pub const HEIGHT: usize = 8;
pub const FAR: usize = 9;
pub const GUARD: usize = 10;
pub const SURFACE_SHIFT: usize = 11;
pub const CLIP_LO: usize = 14;
pub const CLIP_HI: usize = 17;

/// The three parts.
#[derive(Clone, Debug)]
pub struct Draft {
    /// The number of each place; place 0 is the start word and stays 0.
    pub job: [i32; 20],
    pub scene: Vec<Piece>,
    /// What the scene's start counts, where that is not the number of words that follow.
    pub count: Option<u32>,
    pub width: u32,
    pub depth: u32,
    pub heights: Vec<i32>,
}

impl Draft {
    /// The worked example of the documents.
    pub fn example() -> Draft {
        Draft {
            job: [0, 0, 0, 20, 12, 22, 16, 2, 1, 50, 0, 0, 0, 0, -100, -100, -100, 100, 100, 100],
            scene: vec![Piece::cuboid([0, 0, 5], [0, 0, 8])],
            count: None,
            width: 2,
            depth: 1,
            heights: vec![3, 0],
        }
    }

    /// Puts three numbers of the job from a place on.
    pub fn put(&mut self, place: usize, point: [i32; 3]) {
        self.job[place..place + 3].copy_from_slice(&point);
    }

    /// How many words the scene's nodes take.
    pub fn scene_words(&self) -> usize {
        self.scene.iter().map(|piece| 1 + piece.numbers.len()).sum()
    }

    /// The words of job, scene and surface.
    pub fn parts(&self) -> [Vec<u32>; 3] {
        let job = std::iter::once(13 << 28).chain(self.job[1..].iter().copied().map(number)).collect();
        let count = self.count.unwrap_or(self.scene_words() as u32);
        let nodes = self.scene.iter().flat_map(|piece| std::iter::once(piece.kind << 28).chain(piece.numbers.iter().copied().map(number)));
        let scene = std::iter::once(1 << 28 | count & 0x0FFF_FFFF).chain(nodes).collect();
        let start = 9 << 28 | (self.width & 0xFFF) << 16 | self.depth & 0xFFFF;
        let surface = std::iter::once(start).chain(self.heights.iter().copied().map(number)).collect();
        [job, scene, surface]
    }

    /// The bytes of the three parts, joined.
    pub fn bytes(&self) -> Vec<u8> {
        bytes(&self.parts())
    }
}

/// The bytes of the parts' words, joined.
pub fn bytes(parts: &[Vec<u32>; 3]) -> Vec<u8> {
    parts.iter().flatten().flat_map(|word| word.to_le_bytes()).collect()
}
