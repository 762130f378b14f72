//! The whole program, from input bytes to output bytes.
//!
//! Three readers (job, scene, surface) turn the input into tables; the scene, the surface and the clip box then stand in one table of solids, and each pixel
//! marches over its root.

use std::ops::RangeInclusive;

/// A point of the lattice, or a step between two.
pub type Point = [i32; 3];

/// The reach of a leaf.
const LEAF_REACH: i32 = 1_048_576;
/// The least reach a picture needs.
pub(crate) const WORKING_REACH: i32 = 32_767;
/// The cap of a picture's pile.
pub(crate) const CAP: i32 = 64;
/// The most nodes of a scene.
const MOST_NODES: usize = 256;
/// The most words after a scene's start.
const MOST_WORDS: usize = 1_792;

/// Centres, corners and origins.
const COORDINATE: RangeInclusive<i32> = -16_384..=16_383;
/// The parts of a shift.
const OFFSET: RangeInclusive<i32> = -16_383..=16_383;
const RADIUS: RangeInclusive<i32> = 0..=16_383;
const THICKNESS: RangeInclusive<i32> = 0..=1_023;
pub(crate) const SIDE: RangeInclusive<i32> = 1..=64;
const FAR: RangeInclusive<i32> = 0..=4_095;
const ROW: RangeInclusive<i32> = 0..=26;
/// The row that does not move.
const STILL_ROW: i32 = 13;
const HEIGHT: RangeInclusive<i32> = -32_768..=32_767;

/// The kinds of words.
pub(crate) mod kind {
    pub const SCENE: u32 = 1;
    pub const NUMBER: u32 = 2;
    pub const BALL: u32 = 3;
    pub const BOX: u32 = 4;
    pub const UNITE: u32 = 5;
    pub const MEET: u32 = 6;
    pub const SHIFT: u32 = 7;
    pub const THICKEN: u32 = 8;
    pub const SURFACE: u32 = 9;
    pub const IMAGE: u32 = 10;
    pub const HIT: u32 = 11;
    pub const MISS: u32 = 12;
    pub const JOB: u32 = 13;
    pub const REFUSAL: u32 = 14;
}

/// A word of a kind; `low` holds its other bits.
pub(crate) fn word(kind: u32, low: u32) -> u32 {
    kind << 28 | low
}

/// The part of the input that a refusal speaks of.
#[derive(Clone, Copy, Debug, PartialEq, Eq)]
pub enum Part {
    Job = 1,
    Scene = 2,
    Surface = 3,
    Whole = 4,
}

/// Why an input is not drawn.
#[derive(Clone, Copy, Debug, PartialEq, Eq)]
pub struct Refusal {
    pub part: Part,
    pub number: u8,
    pub place: usize,
}

impl Refusal {
    /// The word that the program writes for it.
    pub fn word(self) -> u32 {
        word(kind::REFUSAL, (self.part as u32) << 24 | u32::from(self.number) << 16 | self.place as u32)
    }
}

/// The words of one part, and what is left of the input.
struct Words<'a> {
    rest: &'a [u8],
    part: Part,
    /// The place of the next word.
    place: usize,
}

impl<'a> Words<'a> {
    /// The first word of `rest` is place 0 of `part`.
    fn new(rest: &'a [u8], part: Part) -> Self {
        Words { rest, part, place: 0 }
    }

    fn refusal(&self, number: u8, place: usize) -> Refusal {
        Refusal { part: self.part, number, place }
    }

    /// Takes the next word, which must have one of the kinds.
    fn take(&mut self, kinds: RangeInclusive<u32>) -> Result<u32, Refusal> {
        let Some((bytes, rest)) = self.rest.split_first_chunk() else {
            return Err(self.refusal(1, self.place));
        };
        let word = u32::from_le_bytes(*bytes);
        if !kinds.contains(&(word >> 28)) {
            return Err(self.refusal(2, self.place));
        }
        self.rest = rest;
        self.place += 1;
        Ok(word)
    }

    /// Takes the next word, of which no bit of `unnamed` may be set.
    fn take_named(&mut self, kinds: RangeInclusive<u32>, unnamed: u32) -> Result<u32, Refusal> {
        let word = self.take(kinds)?;
        if word & unnamed != 0 {
            return Err(self.refusal(3, self.place - 1));
        }
        Ok(word)
    }

    /// Takes a number in the range.
    fn number(&mut self, range: RangeInclusive<i32>) -> Result<i32, Refusal> {
        let word = self.take_named(kind::NUMBER..=kind::NUMBER, 0x0FFF_0000)?;
        let number = i32::from(word as u16 as i16);
        if !range.contains(&number) {
            return Err(self.refusal(4, self.place - 1));
        }
        Ok(number)
    }

    /// Takes three numbers in the range.
    fn point(&mut self, range: RangeInclusive<i32>) -> Result<Point, Refusal> {
        Ok([self.number(range.clone())?, self.number(range.clone())?, self.number(range)?])
    }

    /// Takes the row of a direction, and looks it up.
    fn direction(&mut self) -> Result<Point, Refusal> {
        let row = self.number(HEIGHT)?;
        if !ROW.contains(&row) || row == STILL_ROW {
            return Err(self.refusal(5, self.place - 1));
        }
        Ok([row / 9 - 1, row / 3 % 3 - 1, row % 3 - 1])
    }
}

/// Whether the corners are crossed on an axis.
fn crossed(lo: Point, hi: Point) -> bool {
    (0..3).any(|axis| lo[axis] > hi[axis])
}

/// What is looked at, from where, and what surrounds the scene.
#[derive(Clone, Debug)]
pub struct Job {
    pub origin: Point,
    pub ray: Point,
    pub across: Point,
    pub down: Point,
    pub width: i32,
    pub height: i32,
    pub far: i32,
    pub guard: i32,
    pub surface_shift: Point,
    pub clip_lo: Point,
    pub clip_hi: Point,
}

impl Job {
    pub(crate) fn read(bytes: &[u8]) -> Result<(Job, &[u8]), Refusal> {
        let mut words = Words::new(bytes, Part::Job);
        words.take_named(kind::JOB..=kind::JOB, 0x0FFF_FFFF)?;
        let job = Job {
            origin: words.point(COORDINATE)?,
            ray: words.direction()?,
            across: words.direction()?,
            down: words.direction()?,
            width: words.number(SIDE)?,
            height: words.number(SIDE)?,
            far: words.number(FAR)?,
            guard: words.number(THICKNESS)?,
            surface_shift: words.point(OFFSET)?,
            clip_lo: words.point(COORDINATE)?,
            clip_hi: words.point(COORDINATE)?,
        };
        if crossed(job.clip_lo, job.clip_hi) {
            return Err(words.refusal(6, 14));
        }
        Ok((job, words.rest))
    }

    /// Where the ray of pixel (i, j) starts.
    pub fn start(&self, i: i32, j: i32) -> Point {
        [0, 1, 2].map(|axis| self.origin[axis] + i * self.across[axis] + j * self.down[axis])
    }

    /// The point at `t` of the ray from `start`.
    pub fn along(&self, start: Point, t: i32) -> Point {
        [0, 1, 2].map(|axis| start[axis] + t * self.ray[axis])
    }
}

/// A solid in a table; the solids below it are named by their places in that table.
#[derive(Clone, Copy, Debug)]
pub enum Node {
    Ball {
        centre: Point,
        radius: i32,
    },
    Box {
        lo: Point,
        hi: Point,
    },
    /// The one surface that goes with the table.
    Surface,
    Unite(u16, u16),
    Meet(u16, u16),
    Shift(u16, Point),
    Thicken(u16, i32),
    Cap(u16, i32),
}

/// A node of a table, with what is known of the solid.
#[derive(Clone, Copy, Debug)]
struct Standing {
    node: u16,
    reach: i32,
    exact: bool,
}

/// A table of nodes; a node stands after those below it.
#[derive(Clone, Debug, Default)]
struct Table {
    nodes: Vec<Node>,
}

impl Table {
    fn push(&mut self, node: Node, reach: i32, exact: bool) -> Standing {
        let place = self.nodes.len() as u16;
        self.nodes.push(node);
        Standing { node: place, reach, exact }
    }

    fn ball(&mut self, centre: Point, radius: i32) -> Standing {
        self.push(Node::Ball { centre, radius }, LEAF_REACH, true)
    }

    fn cuboid(&mut self, lo: Point, hi: Point) -> Standing {
        self.push(Node::Box { lo, hi }, LEAF_REACH, true)
    }

    fn surface(&mut self) -> Standing {
        self.push(Node::Surface, LEAF_REACH, false)
    }

    fn unite(&mut self, a: Standing, b: Standing) -> Standing {
        self.push(Node::Unite(a.node, b.node), a.reach.min(b.reach), a.exact && b.exact)
    }

    fn meet(&mut self, a: Standing, b: Standing) -> Standing {
        self.push(Node::Meet(a.node, b.node), a.reach.min(b.reach), false)
    }

    /// None where the reach would fall below 0.
    fn shift(&mut self, below: Standing, v: Point) -> Option<Standing> {
        let reach = below.reach - v[0].abs().max(v[1].abs()).max(v[2].abs());
        (reach >= 0).then(|| self.push(Node::Shift(below.node, v), reach, below.exact))
    }

    fn thicken(&mut self, below: Standing, h: i32) -> Standing {
        self.push(Node::Thicken(below.node, h), below.reach, true)
    }

    fn cap(&mut self, below: Standing, most: i32) -> Standing {
        self.push(Node::Cap(below.node, most), below.reach, false)
    }
}

/// The scene: a table of nodes with its root last.
#[derive(Clone, Debug)]
pub struct Scene {
    table: Table,
    root: Standing,
}

impl Scene {
    pub(crate) fn read(bytes: &[u8]) -> Result<(Scene, &[u8]), Refusal> {
        let mut words = Words::new(bytes, Part::Scene);
        let count = (words.take(kind::SCENE..=kind::SCENE)? & 0x0FFF_FFFF) as usize;
        if !(1..=MOST_WORDS).contains(&count) {
            return Err(words.refusal(7, 0));
        }
        let mut table = Table::default();
        let mut standing: Vec<Standing> = Vec::new();
        while words.place <= count {
            let place = words.place;
            let kind = words.take_named(kind::BALL..=kind::THICKEN, 0x0FFF_FFFF)? >> 28;
            let (takes, numbers) = match kind {
                kind::BALL => (0, 4),
                kind::BOX => (0, 6),
                kind::UNITE | kind::MEET => (2, 0),
                kind::SHIFT => (1, 3),
                _ => (1, 1),
            };
            if table.nodes.len() == MOST_NODES {
                return Err(words.refusal(8, place));
            }
            if place + numbers > count {
                return Err(words.refusal(12, place));
            }
            if standing.len() < takes {
                return Err(words.refusal(9, place));
            }
            let kept = standing.len() - takes;
            let node = match (kind, &standing[kept..]) {
                (kind::BALL, []) => table.ball(words.point(COORDINATE)?, words.number(RADIUS)?),
                (kind::BOX, []) => {
                    let (lo, hi) = (words.point(COORDINATE)?, words.point(COORDINATE)?);
                    if crossed(lo, hi) {
                        return Err(words.refusal(6, place));
                    }
                    table.cuboid(lo, hi)
                }
                (kind::UNITE, &[a, b]) => table.unite(a, b),
                (kind::MEET, &[a, b]) => table.meet(a, b),
                (kind::SHIFT, &[a]) => {
                    let v = words.point(OFFSET)?;
                    table.shift(a, v).ok_or(words.refusal(11, place))?
                }
                (kind::THICKEN, &[a]) => {
                    if !a.exact {
                        return Err(words.refusal(10, place));
                    }
                    table.thicken(a, words.number(THICKNESS)?)
                }
                _ => unreachable!("a node takes as many as its kind says"),
            };
            standing.truncate(kept);
            standing.push(node);
        }
        match standing[..] {
            [root] => Ok((Scene { table, root }, words.rest)),
            _ => Err(words.refusal(12, count)),
        }
    }

    /// The nodes, those below before those above; the last is the scene.
    pub fn nodes(&self) -> &[Node] {
        &self.table.nodes
    }

    /// How far from the origin the scene may be asked.
    pub fn reach(&self) -> i32 {
        self.root.reach
    }
}

/// Columns, one height each.
#[derive(Clone, Debug)]
pub struct Surface {
    pub width: i32,
    pub depth: i32,
    /// Column (x, y) at place y·width + x.
    pub heights: Vec<i32>,
    /// The greatest height.
    top: i32,
}

impl Surface {
    fn read(bytes: &[u8]) -> Result<(Surface, &[u8]), Refusal> {
        let mut words = Words::new(bytes, Part::Surface);
        let start = words.take(kind::SURFACE..=kind::SURFACE)?;
        let width = (start >> 16 & 0xFFF) as i32;
        let depth = (start & 0xFFFF) as i32;
        if !SIDE.contains(&width) || !SIDE.contains(&depth) {
            return Err(words.refusal(13, 0));
        }
        let heights = (0..width * depth).map(|_| words.number(HEIGHT)).collect::<Result<Vec<_>, _>>()?;
        Ok((Surface::new(width, depth, heights), words.rest))
    }

    /// A surface with a height for each column.
    pub(crate) fn new(width: i32, depth: i32, heights: Vec<i32>) -> Surface {
        let top = heights.iter().copied().max().unwrap_or(0);
        Surface { width, depth, heights, top }
    }

    /// Whether the point is a member.
    pub(crate) fn contains(&self, [x, y, z]: Point) -> bool {
        let inside = (0..self.width).contains(&x) && (0..self.depth).contains(&y);
        inside && z <= self.heights[(y * self.width + x) as usize]
    }

    pub(crate) fn clearance(&self, p: Point) -> i32 {
        if self.contains(p) {
            return 0;
        }
        let [x, y, z] = p;
        let beside = (-x).max(x - (self.width - 1)).max(-y).max(y - (self.depth - 1));
        beside.max(z - self.top).max(1)
    }
}

/// An input without fault.
#[derive(Clone, Debug)]
pub struct Input {
    pub job: Job,
    pub scene: Scene,
    pub surface: Surface,
}

impl Input {
    /// Reads the three parts, joined, and nothing after them.
    pub fn read(bytes: &[u8]) -> Result<Input, Refusal> {
        let (job, bytes) = Job::read(bytes)?;
        let (scene, bytes) = Scene::read(bytes)?;
        let (surface, bytes) = Surface::read(bytes)?;
        let whole = |number| Refusal { part: Part::Whole, number, place: 0 };
        if !bytes.is_empty() {
            return Err(whole(14));
        }
        if job.guard > 0 && !scene.root.exact {
            return Err(whole(15));
        }
        Ok(Input { job, scene, surface })
    }
}

/// The solid of a picture.
#[derive(Debug)]
struct Pile<'a> {
    table: Table,
    root: Standing,
    surface: &'a Surface,
}

impl<'a> Pile<'a> {
    /// The cap over the meet of the clip box with the unite of the shifted surface and the guarded scene.
    fn new(input: &'a Input) -> Pile<'a> {
        let job = &input.job;
        let mut table = input.scene.table.clone();
        let mut scene = input.scene.root;
        if job.guard > 0 {
            scene = table.thicken(scene, job.guard);
        }
        let surface = table.surface();
        let surface = table.shift(surface, job.surface_shift).expect("one shift is within a leaf's reach");
        let both = table.unite(surface, scene);
        let clip = table.cuboid(job.clip_lo, job.clip_hi);
        let clipped = table.meet(clip, both);
        let root = table.cap(clipped, CAP);
        Pile { table, root, surface: &input.surface }
    }

    fn clearance(&self, p: Point) -> i32 {
        self.clearance_of(self.root.node, p)
    }

    fn clearance_of(&self, node: u16, p: Point) -> i32 {
        match self.table.nodes[usize::from(node)] {
            Node::Ball { centre, radius } => ball_clearance(centre, radius, p),
            Node::Box { lo, hi } => {
                let beside = |axis: usize| (lo[axis] - p[axis]).max(p[axis] - hi[axis]);
                beside(0).max(beside(1)).max(beside(2)).max(0)
            }
            Node::Surface => self.surface.clearance(p),
            Node::Unite(a, b) => self.clearance_of(a, p).min(self.clearance_of(b, p)),
            Node::Meet(a, b) => self.clearance_of(a, p).max(self.clearance_of(b, p)),
            Node::Shift(a, v) => self.clearance_of(a, [p[0] - v[0], p[1] - v[1], p[2] - v[2]]),
            Node::Thicken(a, h) => (self.clearance_of(a, p) - h).max(0),
            Node::Cap(a, most) => self.clearance_of(a, p).min(most),
        }
    }
}

/// The least k for which the offsets, each less k and not below 0, fit in the ball.
pub(crate) fn ball_clearance(centre: Point, radius: i32, p: Point) -> i32 {
    let offsets = [0, 1, 2].map(|axis| (p[axis] - centre[axis]).abs());
    let greatest = offsets[0].max(offsets[1]).max(offsets[2]);
    // Less than this, and the greatest offset alone is above the radius. From here on every reduced offset is at most the radius, and the sum fits an i32.
    let mut low = (greatest - radius).max(0);
    // With this, each reduced offset is at most 0.577 radii, and 3 × 0.577² is below 1.
    let mut high = (greatest - radius * 577 / 1_000).max(0);
    while low < high {
        let k = low + (high - low) / 2;
        let squares = offsets.map(|offset| (offset - k).max(0).pow(2));
        if squares[0] + squares[1] + squares[2] <= radius * radius {
            high = k;
        } else {
            low = k + 1;
        }
    }
    low
}

/// Marches one ray until it settles, and gives the word of its pixel.
fn march(job: &Job, pile: &Pile, start: Point) -> u32 {
    let mut t = 0;
    let mut probes = 0;
    loop {
        let clearance = pile.clearance(job.along(start, t));
        probes += 1;
        if clearance == 0 {
            return word(kind::HIT, (t as u32) << 16 | probes);
        }
        t += clearance;
        if t > job.far {
            return word(kind::MISS, probes);
        }
    }
}

/// The words of the image.
fn image(input: &Input) -> Result<Vec<u32>, Refusal> {
    let pile = Pile::new(input);
    if pile.root.reach < WORKING_REACH {
        return Err(Refusal { part: Part::Whole, number: 16, place: 0 });
    }
    let job = &input.job;
    let mut words = Vec::with_capacity((2 + job.width * job.height) as usize);
    words.push(word(kind::IMAGE, (job.width as u32) << 16 | job.height as u32));
    words.push(word(kind::NUMBER, job.far as u32));
    for j in 0..job.height {
        for i in 0..job.width {
            words.push(march(job, &pile, job.start(i, j)));
        }
    }
    Ok(words)
}

/// The program: the image of the input, or one refusal word.
pub fn render(input: &[u8]) -> Vec<u8> {
    let words = Input::read(input).and_then(|input| image(&input)).unwrap_or_else(|refusal| vec![refusal.word()]);
    words.into_iter().flat_map(u32::to_le_bytes).collect()
}

#[cfg(test)]
mod tests {
    use super::*;
    use crate::gen::{self, Random};
    use crate::walk;

    /// The definition, counted up from 0.
    fn ball_by_count(centre: Point, radius: i32, p: Point) -> i32 {
        let offset = |axis: usize| i64::from((p[axis] - centre[axis]).abs());
        let reduced = |axis: usize, k: i64| (offset(axis) - k).max(0).pow(2);
        let r = i64::from(radius).pow(2);
        (0..).find(|&k| reduced(0, k) + reduced(1, k) + reduced(2, k) <= r).unwrap() as i32
    }

    #[test]
    fn a_ball_is_searched_as_it_is_counted() {
        let mut random = Random::new(1);
        for _ in 0..2_000 {
            let extent = random.pick(&[3, 20, 500, 16_383]);
            let centre = [0; 3].map(|_: i32| random.range(-extent, extent));
            let p = [0; 3].map(|_: i32| random.range(-2 * extent, 2 * extent));
            let radius = random.range(0, extent);
            assert_eq!(ball_clearance(centre, radius, p), ball_by_count(centre, radius, p), "{centre:?} {radius} {p:?}");
        }
    }

    #[test]
    fn a_ball_at_the_end_of_its_reach() {
        assert_eq!(ball_clearance([-16_384; 3], 16_383, [LEAF_REACH; 3]), ball_by_count([-16_384; 3], 16_383, [LEAF_REACH; 3]));
        assert_eq!(ball_clearance([0; 3], 0, [-LEAF_REACH, 0, 5]), LEAF_REACH);
    }

    #[test]
    fn an_exact_scene_has_a_member_at_its_clearance_and_none_nearer() {
        let mut random = Random::new(2);
        let mut asked = 0;
        for index in 0..3_000 {
            let input = Input::read(&gen::lawful_input(5, index)).unwrap();
            let (pile, job) = (Pile::new(&input), &input.job);
            if !input.scene.root.exact {
                continue;
            }
            for _ in 0..20 {
                let start = job.start(random.range(0, job.width - 1), random.range(0, job.height - 1));
                let p = job.along(start, random.range(0, job.far));
                let clearance = pile.clearance_of(input.scene.root.node, p);
                assert!(walk::scene_within(&input, p, clearance), "index {index}, {p:?}");
                assert!(clearance == 0 || !walk::scene_within(&input, p, clearance - 1), "index {index}, {p:?}");
                asked += 1;
            }
        }
        assert!(asked > 10_000);
    }

    #[test]
    fn neighbours_differ_by_one_at_most() {
        let mut random = Random::new(3);
        for index in 0..1_000 {
            let input = Input::read(&gen::lawful_input(6, index)).unwrap();
            let (pile, job) = (Pile::new(&input), &input.job);
            for _ in 0..20 {
                let start = job.start(random.range(0, job.width - 1), random.range(0, job.height - 1));
                let p = job.along(start, random.range(0, job.far));
                let q = p.map(|c| c + random.range(-1, 1));
                assert!((pile.clearance(p) - pile.clearance(q)).abs() <= 1, "index {index}, {p:?}, {q:?}");
                assert_eq!(pile.clearance(p) == 0, walk::in_picture(&input, p), "index {index}, {p:?}");
            }
        }
    }

    #[test]
    fn directions() {
        for (row, step) in [(12, [0, 0, -1]), (22, [1, 0, 0]), (16, [0, 1, 0]), (0, [-1, -1, -1]), (26, [1, 1, 1])] {
            let bytes = (0x2000_0000u32 + row).to_le_bytes();
            assert_eq!(Words::new(&bytes, Part::Job).direction(), Ok(step));
        }
    }

    #[test]
    fn the_empty_input() {
        assert_eq!(render(&[]), [0x00, 0x00, 0x01, 0xE1]);
    }

    #[test]
    fn the_worked_example() {
        #[rustfmt::skip]
        let words: [u32; 31] = [
            0xD000_0000, 0x2000_0000, 0x2000_0000, 0x2000_0014, 0x2000_000C, 0x2000_0016, 0x2000_0010, 0x2000_0002, 0x2000_0001, 0x2000_0032,
            0x2000_0000, 0x2000_0000, 0x2000_0000, 0x2000_0000, 0x2000_FF9C, 0x2000_FF9C, 0x2000_FF9C, 0x2000_0064, 0x2000_0064, 0x2000_0064,
            0x1000_0007, 0x4000_0000, 0x2000_0000, 0x2000_0000, 0x2000_0005, 0x2000_0000, 0x2000_0000, 0x2000_0008,
            0x9002_0001, 0x2000_0003, 0x2000_0000,
        ];
        let bytes: Vec<u8> = words.into_iter().flat_map(u32::to_le_bytes).collect();
        let image = [0x01, 0x00, 0x02, 0xA0, 0x32, 0x00, 0x00, 0x20, 0x02, 0x00, 0x0C, 0xB0, 0x0A, 0x00, 0x14, 0xB0];
        assert_eq!(render(&bytes), image);
    }
}
