//! A march and a walk over a flat row of leaves: what one writes for speed where a scene is nothing but leaves united one after another.
//!
//! Shifts are folded into the leaves, a union is a minimum in any order, and no question asks beyond its limit: the cap, the end of the ray, or the smaller
//! clearance found already. There is no index over the leaves: a question passes the whole row. `LeafByLeaf` is the row as one would write it first, and
//! `crate::eights` a faster one.

use crate::eights::Eights;
use crate::model::{kind, word, Input, Job, Node, Point, Scene, Surface, CAP, SIDE, WORKING_REACH};

/// A ball in its place.
#[derive(Clone, Copy, Debug, Default)]
pub(crate) struct Ball {
    pub(crate) centre: Point,
    pub(crate) radius: i32,
}

impl Ball {
    #[inline(always)]
    fn offsets(&self, p: Point) -> Point {
        [0, 1, 2].map(|axis| (p[axis] - self.centre[axis]).abs())
    }

    /// The clearance of the least box about the ball, which the ball's is never below; below 0 inside.
    #[inline(always)]
    fn bound(&self, p: Point) -> i32 {
        let [x, y, z] = self.offsets(p);
        x.max(y).max(z) - self.radius
    }

    #[inline(always)]
    pub(crate) fn contains(&self, p: Point) -> bool {
        let [x, y, z] = self.offsets(p);
        self.bound(p) <= 0 && x * x + y * y + z * z <= self.radius * self.radius
    }

    /// The clearance where the bound is at most some thousands, so that the squares fit in 32 bits.
    pub(crate) fn clearance(&self, p: Point) -> i32 {
        let [x, y, z] = self.offsets(p);
        let (most, least) = (x.max(y).max(z), x.min(y).min(z));
        let between = x + y + z - most - least;
        let square = self.radius * self.radius;
        // As if one offset were above 0 after the steps, then two, then three: as soon as the others are not.
        let one = most - self.radius;
        if one >= between {
            return one.max(0);
        }
        let two = (most + between - root(2 * square - (most - between).pow(2)) + 1) >> 1;
        if two >= least {
            return two.max(0);
        }
        let spread = (most - between).pow(2) + (between - least).pow(2) + (most - least).pow(2);
        ((x + y + z - root(3 * square - spread) + 2) / 3).max(0)
    }
}

/// The whole part of the square root.
fn root(n: i32) -> i32 {
    f64::from(n).sqrt() as i32
}

/// The clearance of a box.
#[inline(always)]
fn beside(lo: Point, hi: Point, p: Point) -> i32 {
    let beside = |axis: usize| (lo[axis] - p[axis]).max(p[axis] - hi[axis]);
    beside(0).max(beside(1)).max(beside(2)).max(0)
}

/// A leaf in its place.
#[derive(Clone, Copy, Debug)]
pub(crate) enum Leaf {
    Ball(Ball),
    Box { lo: Point, hi: Point },
}

/// The leaves of a scene that is leaves and shifts of leaves, united in any order; None of any other.
fn leaves(input: &Input) -> Option<Vec<Leaf>> {
    if input.job.guard > 0 || input.scene.reach() < WORKING_REACH {
        return None;
    }
    let nodes = input.scene.nodes();
    let mut leaves = Vec::with_capacity(nodes.len());
    let mut due = vec![(nodes.len() - 1, [0; 3])];
    while let Some((node, by)) = due.pop() {
        let moved = |p: Point| [p[0] + by[0], p[1] + by[1], p[2] + by[2]];
        match nodes[node] {
            Node::Ball { centre, radius } => leaves.push(Leaf::Ball(Ball { centre: moved(centre), radius })),
            Node::Box { lo, hi } => leaves.push(Leaf::Box { lo: moved(lo), hi: moved(hi) }),
            Node::Unite(a, b) => due.extend([(b.into(), by), (a.into(), by)]),
            Node::Shift(a, v) => due.push((a.into(), moved(v))),
            _ => return None,
        }
    }
    Some(leaves)
}

/// A row of united leaves.
pub(crate) trait Row {
    fn new(leaves: Vec<Leaf>) -> Self;

    /// The smaller of `best` and the clearance; but once it is at most `enough`, any number from it to that.
    fn clearance(&self, p: Point, best: i32, enough: i32) -> i32;

    /// Is the point a member of one of them?
    fn contains(&self, p: Point) -> bool;
}

/// All boxes, then all balls, one after the other, each asked only below the best so far.
#[derive(Clone, Debug, Default)]
struct LeafByLeaf {
    boxes: Vec<(Point, Point)>,
    balls: Vec<Ball>,
}

impl Row for LeafByLeaf {
    fn new(leaves: Vec<Leaf>) -> Self {
        let mut row = LeafByLeaf::default();
        for leaf in leaves {
            match leaf {
                Leaf::Box { lo, hi } => row.boxes.push((lo, hi)),
                Leaf::Ball(ball) => row.balls.push(ball),
            }
        }
        row
    }

    #[inline]
    fn clearance(&self, p: Point, mut best: i32, enough: i32) -> i32 {
        for (lo, hi) in &self.boxes {
            best = best.min(beside(*lo, *hi, p));
        }
        for ball in &self.balls {
            if best <= enough {
                break;
            }
            if ball.bound(p) < best {
                best = best.min(ball.clearance(p));
            }
        }
        best
    }

    #[inline]
    fn contains(&self, p: Point) -> bool {
        self.boxes.iter().any(|(lo, hi)| beside(*lo, *hi, p) == 0) || self.balls.iter().any(|ball| ball.contains(p))
    }
}

/// What is drawn.
struct Picture<R> {
    job: Job,
    surface: Surface,
    row: R,
}

impl<R: Row> Picture<R> {
    fn clip(&self, p: Point) -> i32 {
        beside(self.job.clip_lo, self.job.clip_hi, p)
    }

    fn on_surface(&self, p: Point) -> Point {
        [0, 1, 2].map(|axis| p[axis] - self.job.surface_shift[axis])
    }

    /// The smaller of `limit` and the clearance.
    fn clearance(&self, p: Point, limit: i32) -> i32 {
        let clip = self.clip(p);
        if clip >= limit {
            return limit;
        }
        let best = self.surface.clearance(self.on_surface(p)).min(limit);
        if best <= clip {
            return clip;
        }
        self.row.clearance(p, best, clip).max(clip)
    }

    /// The word of a pixel: the march, with its probes.
    fn march(&self, start: Point) -> u32 {
        let far = self.job.far;
        let (mut t, mut probes) = (0, 0);
        while t <= far {
            let clearance = self.clearance(self.job.along(start, t), CAP.min(far - t + 1));
            probes += 1;
            if clearance == 0 {
                return word(kind::HIT, (t as u32) << 16 | probes);
            }
            t += clearance;
        }
        word(kind::MISS, probes)
    }
}

impl<R: Row> Picture<R> {
    fn contains(&self, p: Point) -> bool {
        self.clip(p) == 0 && (self.surface.contains(self.on_surface(p)) || self.row.contains(p))
    }

    /// The word of a pixel: the walk, each point that it asked as a probe.
    fn walk(&self, start: Point) -> u32 {
        let far = self.job.far;
        match (0..=far).find(|&t| self.contains(self.job.along(start, t))) {
            Some(t) => word(kind::HIT, (t as u32) << 16 | (t as u32 + 1)),
            None => word(kind::MISS, far as u32 + 1),
        }
    }
}

/// The surface, where all its words are as they should be and no byte is left.
fn surface(bytes: &[u8]) -> Option<Surface> {
    let (words, []) = bytes.as_chunks() else { return None };
    let (start, heights) = words.split_first()?;
    let start = u32::from_le_bytes(*start);
    let (width, depth) = ((start >> 16 & 0xFFF) as i32, (start & 0xFFFF) as i32);
    let fits = SIDE.contains(&width) && SIDE.contains(&depth) && heights.len() == (width * depth) as usize;
    let others = heights.iter().fold(0, |others, word| others | (u32::from_le_bytes(*word) ^ kind::NUMBER << 28));
    if start >> 28 != kind::SURFACE || !fits || others >> 16 != 0 {
        return None;
    }
    let heights = heights.iter().map(|word| i32::from(i16::from_le_bytes([word[0], word[1]])));
    Some(Surface::new(width, depth, heights.collect()))
}

/// An input without a fault or a guard.
fn read(bytes: &[u8]) -> Option<Input> {
    let (job, bytes) = Job::read(bytes).ok()?;
    let (scene, bytes) = Scene::read(bytes).ok()?;
    let surface = surface(bytes)?;
    (job.guard == 0).then_some(Input { job, scene, surface })
}

/// Writes the image of an input whose pixels are drawn so at the front of a buffer, or its refusal, and answers its length. None where it is not flat.
fn draw_into<R: Row>(bytes: &[u8], output: &mut [u8], pixel: impl Fn(&Picture<R>, Point) -> u32) -> Option<usize> {
    let mut room = output.chunks_exact_mut(4);
    let mut put = |word: u32| room.next().expect("it has room").copy_from_slice(&word.to_le_bytes());
    let input = match read(bytes).map_or_else(|| Input::read(bytes), Ok) {
        Ok(input) => input,
        Err(refusal) => {
            put(refusal.word());
            return Some(4);
        }
    };
    let row = R::new(leaves(&input)?);
    let picture = Picture { job: input.job, surface: input.surface, row };
    let job = &picture.job;
    put(word(kind::IMAGE, (job.width as u32) << 16 | job.height as u32));
    put(word(kind::NUMBER, job.far as u32));
    for j in 0..job.height {
        for i in 0..job.width {
            put(pixel(&picture, job.start(i, j)));
        }
    }
    Some(4 * (2 + job.width * job.height) as usize)
}

/// The march, a leaf at a time: the bytes of the program `depth`.
pub fn march_into(input: &[u8], output: &mut [u8]) -> Option<usize> {
    draw_into(input, output, Picture::<LeafByLeaf>::march)
}

/// The march, eight leaves at a time.
pub fn march_eights_into(input: &[u8], output: &mut [u8]) -> Option<usize> {
    draw_into(input, output, Picture::<Eights>::march)
}

/// The walk, a leaf at a time: those bytes, but that a pixel's probes are the points that it asked.
pub fn walk_into(input: &[u8], output: &mut [u8]) -> Option<usize> {
    draw_into(input, output, Picture::<LeafByLeaf>::walk)
}

/// The walk, eight leaves at a time.
pub fn walk_eights_into(input: &[u8], output: &mut [u8]) -> Option<usize> {
    draw_into(input, output, Picture::<Eights>::walk)
}

#[cfg(test)]
mod tests {
    use super::*;
    use crate::gen::{self, Random};
    use crate::kit::MOST_OUTPUT;
    use crate::{alike_but_probes, answer, model, pictures, Answer};

    #[test]
    fn a_ball_is_solved_as_it_is_searched() {
        let mut random = Random::new(4);
        for _ in 0..50_000 {
            let extent = random.pick(&[3, 20, 500, 16_383]);
            let ball = Ball { centre: [0; 3].map(|_: i32| random.range(-extent, extent)), radius: random.range(0, extent) };
            let beside = random.range(0, 2_000);
            let p = ball.centre.map(|c| c + random.range(-ball.radius - beside, ball.radius + beside));
            let clearance = model::ball_clearance(ball.centre, ball.radius, p);
            assert_eq!(ball.clearance(p), clearance, "{ball:?} {p:?}");
            assert!(ball.bound(p) <= clearance, "{ball:?} {p:?}");
            assert_eq!(ball.contains(p), clearance == 0, "{ball:?} {p:?}");
        }
    }

    /// Whether the input is flat; then all three must be as the model has it.
    fn is_flat_and_drawn_alike(input: &[u8]) -> bool {
        let mut output = [0; MOST_OUTPUT];
        let Some(length) = march_into(input, &mut output) else {
            return false;
        };
        let image = model::render(input);
        assert!(output[..length] == image, "march");
        let length = march_eights_into(input, &mut output).expect("it is flat");
        assert!(output[..length] == image, "eights");
        for walk in [walk_into, walk_eights_into] {
            let length = walk(input, &mut output).expect("it is flat");
            assert!(alike_but_probes(&output[..length], &image), "walk");
        }
        true
    }

    #[test]
    fn flat_inputs_are_drawn_as_by_the_model() {
        let drawn = (0..3_000).map(|index| gen::input(7, index)).filter(|input| is_flat_and_drawn_alike(input));
        assert!(drawn.filter(|input| answer(&model::render(input)) == Answer::Image).count() > 200);
    }

    #[test]
    fn timed_pictures_are_flat_as_they_should_be() {
        for count in [1, 10, 40, 127] {
            let leaves = pictures::spread(count);
            for scene in [pictures::chained(&leaves), pictures::balanced(&leaves)] {
                assert!(is_flat_and_drawn_alike(&pictures::picture(16, 16, 4_095, scene)), "{count}");
            }
        }
        assert!(!is_flat_and_drawn_alike(&pictures::picture(16, 16, 4_095, pictures::layered(&pictures::spread(40)))));
    }
}
