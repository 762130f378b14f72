//! A flat row in groups of eight leaves, as 16-bit bounds axis by axis, so that the compiler can ask eight at once: all boxes, then all balls.

use crate::flat::{Ball, Leaf, Row};
use crate::model::Point;

/// How many leaves stand in a group.
const GROUP: usize = 8;

/// The boxes about the leaves of a group.
#[derive(Clone, Copy, Debug)]
struct Bounds {
    lo: [[i16; GROUP]; 3],
    hi: [[i16; GROUP]; 3],
}

impl Bounds {
    /// Boxes that are nearer than the cap to no ray.
    const FAR: Bounds = Bounds { lo: [[i16::MAX; GROUP]; 3], hi: [[i16::MAX; GROUP]; 3] };

    /// A corner beyond the 16 bits may stand at their end, since every ray keeps thousands away from that.
    fn put(&mut self, at: usize, lo: Point, hi: Point) {
        let narrow = |n: i32| n.clamp(i16::MIN.into(), i16::MAX.into()) as i16;
        for axis in 0..3 {
            self.lo[axis][at] = narrow(lo[axis]);
            self.hi[axis][at] = narrow(hi[axis]);
        }
    }

    /// The clearance of each box; below 0 inside.
    #[inline(always)]
    fn clearances(&self, p: [i16; 3]) -> [i16; GROUP] {
        let mut clearances = [i16::MIN; GROUP];
        for axis in 0..3 {
            for (at, clearance) in clearances.iter_mut().enumerate() {
                let before = self.lo[axis][at].saturating_sub(p[axis]);
                let behind = p[axis].saturating_sub(self.hi[axis][at]);
                *clearance = before.max(behind).max(*clearance);
            }
        }
        clearances
    }
}

#[inline(always)]
fn least(clearances: [i16; GROUP]) -> i32 {
    clearances.into_iter().fold(i16::MAX, i16::min).into()
}

/// Balls and the boxes about them.
#[derive(Clone, Copy, Debug)]
struct Balls {
    bounds: Bounds,
    balls: [Ball; GROUP],
}

impl Balls {
    /// The balls whose boxes are nearer than `best`.
    #[inline(always)]
    fn nearer(&self, p: [i16; 3], best: i32) -> impl Iterator<Item = &Ball> {
        let clearances = self.bounds.clearances(p);
        let taken = if least(clearances) < best { GROUP } else { 0 };
        self.balls[..taken].iter().zip(clearances).filter(move |(_, clearance)| i32::from(*clearance) < best).map(|(ball, _)| ball)
    }
}

/// The whole row.
#[derive(Clone, Debug, Default)]
pub(crate) struct Eights {
    boxes: Vec<Bounds>,
    balls: Vec<Balls>,
}

impl Row for Eights {
    fn new(leaves: Vec<Leaf>) -> Self {
        let mut row = Eights::default();
        let (mut boxes, mut balls) = (0, 0);
        for leaf in leaves {
            match leaf {
                Leaf::Box { lo, hi } => {
                    row.boxes.resize(boxes / GROUP + 1, Bounds::FAR);
                    row.boxes[boxes / GROUP].put(boxes % GROUP, lo, hi);
                    boxes += 1;
                }
                Leaf::Ball(ball) => {
                    row.balls.resize(balls / GROUP + 1, Balls { bounds: Bounds::FAR, balls: [Ball::default(); GROUP] });
                    let group = &mut row.balls[balls / GROUP];
                    group.bounds.put(balls % GROUP, ball.centre.map(|c| c - ball.radius), ball.centre.map(|c| c + ball.radius));
                    group.balls[balls % GROUP] = ball;
                    balls += 1;
                }
            }
        }
        row
    }

    #[inline]
    fn clearance(&self, p: Point, mut best: i32, enough: i32) -> i32 {
        let q = p.map(|c| c as i16);
        for group in &self.boxes {
            best = best.min(least(group.clearances(q)).max(0));
        }
        for group in &self.balls {
            if best <= enough {
                break;
            }
            best = group.nearer(q, best).fold(best, |best, ball| best.min(ball.clearance(p)));
        }
        best
    }

    #[inline]
    fn contains(&self, p: Point) -> bool {
        let q = p.map(|c| c as i16);
        self.boxes.iter().any(|group| least(group.clearances(q)) <= 0) || self.balls.iter().any(|group| group.nearer(q, 1).any(|ball| ball.contains(p)))
    }
}
