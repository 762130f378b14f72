//! A plain walk: one lattice step at a time, asking only for membership.

use crate::model::{Input, Node, Point};

/// The depth of each pixel's first member, or None where its ray meets none, row by row.
pub fn walk(input: &Input) -> Vec<Option<i32>> {
    let job = &input.job;
    (0..job.height)
        .flat_map(|j| (0..job.width).map(move |i| (i, j)))
        .map(|(i, j)| {
            let start = job.start(i, j);
            (0..=job.far).find(|&t| in_picture(input, job.along(start, t)))
        })
        .collect()
}

/// Whether the point is a member of the picture's pile.
pub fn in_picture(input: &Input, p: Point) -> bool {
    in_clip(input, p) && (in_surface(input, p) || in_scene(input, p))
}

fn in_clip(input: &Input, p: Point) -> bool {
    (0..3).all(|axis| (input.job.clip_lo[axis]..=input.job.clip_hi[axis]).contains(&p[axis]))
}

fn in_surface(input: &Input, p: Point) -> bool {
    let (surface, v) = (&input.surface, input.job.surface_shift);
    let (x, y, z) = (p[0] - v[0], p[1] - v[1], p[2] - v[2]);
    x >= 0 && x < surface.width && y >= 0 && y < surface.depth && z <= surface.heights[(y * surface.width + x) as usize]
}

fn in_scene(input: &Input, p: Point) -> bool {
    scene_within(input, p, input.job.guard)
}

/// Whether a member of the scene, without its guard, is within distance `h`.
pub fn scene_within(input: &Input, p: Point, h: i32) -> bool {
    let nodes = input.scene.nodes();
    in_node(nodes, nodes.len() - 1, p, h)
}

/// Whether a member of the node is within distance `h`.
///
/// Growing goes down through unite and shift, adds up through thickens, and never comes to a meet with `h` above 0, which no reader lets pass.
fn in_node(nodes: &[Node], node: usize, p: Point, h: i32) -> bool {
    match nodes[node] {
        Node::Ball { centre, radius } => {
            let square = |axis: usize| i64::from(((p[axis] - centre[axis]).abs() - h).max(0)).pow(2);
            square(0) + square(1) + square(2) <= i64::from(radius).pow(2)
        }
        Node::Box { lo, hi } => (0..3).all(|axis| (lo[axis] - h..=hi[axis] + h).contains(&p[axis])),
        Node::Unite(a, b) => in_node(nodes, a.into(), p, h) || in_node(nodes, b.into(), p, h),
        Node::Meet(a, b) => {
            assert_eq!(h, 0, "a meet is not thickened");
            in_node(nodes, a.into(), p, 0) && in_node(nodes, b.into(), p, 0)
        }
        Node::Shift(a, v) => in_node(nodes, a.into(), [p[0] - v[0], p[1] - v[1], p[2] - v[2]], h),
        Node::Thicken(a, more) => in_node(nodes, a.into(), p, h + more),
        Node::Surface | Node::Cap(..) => unreachable!("no node of a scene"),
    }
}
