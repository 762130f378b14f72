//! Inputs written by hand, each with the answer that the documents give it.

use crate::draft::{bytes, Draft, Piece, ACROSS, CLIP_HI, CLIP_LO, DOWN, FAR, GUARD, HEIGHT, ORIGIN, RAY, SURFACE_SHIFT, WIDTH};
use crate::Answer;

/// An input and what it must give.
pub struct Case {
    pub name: &'static str,
    pub input: Vec<u8>,
    pub answer: Answer,
}

/// The worked example with its draft changed.
fn drafted(change: impl FnOnce(&mut Draft)) -> Vec<u8> {
    let mut draft = Draft::example();
    change(&mut draft);
    draft.bytes()
}

/// The worked example over another scene.
fn scene(pieces: Vec<Piece>) -> Vec<u8> {
    drafted(|draft| draft.scene = pieces)
}

/// The worked example over another scene whose start counts `count` words.
fn counted(pieces: Vec<Piece>, count: u32) -> Vec<u8> {
    drafted(|draft| (draft.scene, draft.count) = (pieces, Some(count)))
}

/// The worked example with one word of a part changed.
fn worded(part: usize, place: usize, word: u32) -> Vec<u8> {
    let mut parts = Draft::example().parts();
    parts[part][place] = word;
    bytes(&parts)
}

/// The worked example, cut to so many bytes.
fn cut(length: usize) -> Vec<u8> {
    Draft::example().bytes()[..length].to_vec()
}

/// A ball of radius 5 about the origin.
fn ball() -> Piece {
    Piece::ball([0; 3], 5)
}

/// The ball under shifts of 16,383, to and fro, and then one of `last`.
fn shifted(times: usize, last: i32) -> Vec<Piece> {
    let mut pieces = vec![ball()];
    pieces.extend((0..times).map(|at| Piece::shift([if at % 2 == 0 { 16_383 } else { -16_383 }, 0, 0])));
    pieces.push(Piece::shift([0, 0, last]));
    pieces
}

/// The ball under thickens by 0, `nodes` nodes in all.
fn thickened(nodes: usize) -> Vec<Piece> {
    std::iter::once(ball()).chain((1..nodes).map(|_| Piece::thicken(0))).collect()
}

/// The meet of two balls.
fn met() -> Vec<Piece> {
    vec![ball(), Piece::ball([3, 0, 0], 5), Piece::meet()]
}

/// The pieces and one more.
fn and(mut pieces: Vec<Piece>, more: Piece) -> Vec<Piece> {
    pieces.push(more);
    pieces
}

/// A view of 5 by 4 pixels from above.
fn from_above(draft: &mut Draft) {
    draft.put(ORIGIN, [-3, -2, 40]);
    (draft.job[WIDTH], draft.job[HEIGHT], draft.job[FAR]) = (5, 4, 90);
}

/// All cases.
pub fn cases() -> Vec<Case> {
    let mut cases = Vec::new();
    let mut refuse = |name, input, (part, number, place)| cases.push(Case { name, input, answer: Answer::Refusal { part, number, place } });

    refuse("an empty input", vec![], (1, 1, 0));
    refuse("three bytes", cut(3), (1, 1, 0));
    refuse("a job cut in a word", cut(30), (1, 1, 7));
    refuse("no scene", cut(80), (2, 1, 0));
    refuse("a scene cut", cut(108), (2, 1, 7));
    refuse("a surface cut", cut(123), (3, 1, 2));

    refuse("a scene for a job", worded(0, 0, 0x1000_0007), (1, 2, 0));
    refuse("a kind before a bit", worded(0, 5, 0x3FFF_0000), (1, 2, 5));
    refuse("a surface for a node", worded(1, 1, 0x9000_0000), (2, 2, 1));
    refuse("a box for a surface", worded(2, 0, 0x4000_0000), (3, 2, 0));

    refuse("a bit in the job's word", worded(0, 0, 0xD000_0001), (1, 3, 0));
    refuse("a bit before a range", worded(0, 7, 0x2001_0041), (1, 3, 7));
    refuse("a bit in a node's word", worded(1, 1, 0x4000_0100), (2, 3, 1));
    refuse("a bit in a height", worded(2, 1, 0x2800_0003), (3, 3, 1));

    refuse("an origin too high", drafted(|draft| draft.job[3] = 16_384), (1, 4, 3));
    refuse("a width of 65", drafted(|draft| draft.job[WIDTH] = 65), (1, 4, 7));
    refuse("a far of 4,096", drafted(|draft| draft.job[FAR] = 4_096), (1, 4, 9));
    refuse("a guard of -1", drafted(|draft| draft.job[GUARD] = -1), (1, 4, 10));
    refuse("a surface shift of -16,384", drafted(|draft| draft.job[SURFACE_SHIFT] = -16_384), (1, 4, 11));
    refuse("a radius of -1", scene(vec![Piece::ball([0; 3], -1)]), (2, 4, 5));
    refuse("a corner out of range before crossed ones", scene(vec![Piece::cuboid([1, 0, 0], [0, 0, 16_384])]), (2, 4, 7));
    refuse("a thickness of 1,024", scene(vec![ball(), Piece::thicken(1_024)]), (2, 4, 7));

    refuse("a ray that stands still", drafted(|draft| draft.job[RAY] = 13), (1, 5, 4));
    refuse("a row of -1", drafted(|draft| draft.job[ACROSS] = -1), (1, 5, 5));
    refuse("a row of 27", drafted(|draft| draft.job[DOWN] = 27), (1, 5, 6));

    refuse("a crossed clip box", drafted(|draft| draft.job[CLIP_LO + 1] = 101), (1, 6, 14));
    refuse("a crossed box", scene(vec![ball(), Piece::cuboid([0, 0, 9], [0, 0, 8]), Piece::unite()]), (2, 6, 6));

    refuse("a count of 0", counted(vec![ball()], 0), (2, 7, 0));
    refuse("a count of 1,793", counted(vec![ball()], 1_793), (2, 7, 0));

    refuse("257 nodes", scene(thickened(257)), (2, 8, 516));
    refuse("a 257th node that passes the count", counted(thickened(257), 516), (2, 8, 516));

    refuse("a shift of nothing", scene(vec![Piece::shift([0; 3]), ball()]), (2, 9, 1));
    refuse("a unite of one", scene(vec![ball(), Piece::unite()]), (2, 9, 6));

    refuse("a thickened meet", scene(and(met(), Piece::thicken(0))), (2, 10, 12));
    refuse("a thickened meet, out of range too", scene(and(met(), Piece::thicken(-1))), (2, 10, 12));

    refuse("a shift past the reach", scene(shifted(64, 65)), (2, 11, 262));

    refuse("a ball that passes the count", counted(vec![ball()], 4), (2, 12, 1));
    refuse("a thickened meet that passes the count", counted(and(met(), Piece::thicken(0)), 12), (2, 12, 12));
    refuse("a shift of nothing that passes the count", counted(vec![Piece::shift([0; 3])], 3), (2, 12, 1));
    refuse("two standing nodes", scene(vec![ball(), ball()]), (2, 12, 10));

    refuse("a surface of no width", drafted(|draft| draft.width = 0), (3, 13, 0));
    refuse("a surface of depth 65", drafted(|draft| draft.depth = 65), (3, 13, 0));

    let mut long = Draft::example();
    long.scene = and(and(met(), Piece::shift([0; 3])), Piece::shift([0, 0, 1]));
    long.job[GUARD] = 1;
    refuse("an inexact scene under a guard", long.bytes(), (4, 15, 0));
    refuse("a byte left, before the guard", [long.bytes(), vec![0]].concat(), (4, 14, 0));
    long.scene = shifted(64, 64);
    refuse("a reach of 0", long.bytes(), (4, 16, 0));
    refuse("a reach of 32,766", scene(shifted(62, 64)), (4, 16, 0));
    refuse("63 shifts of 16,383", scene(shifted(62, 16_383)), (4, 16, 0));
    long.scene = and(and(long.scene, ball()), Piece::meet());
    refuse("a guard before a reach", long.bytes(), (4, 15, 0));

    let mut draw = |name, input| cases.push(Case { name, input, answer: Answer::Image });
    draw("the worked example", Draft::example().bytes());
    draw("a reach of 32,767", scene(shifted(62, 63)));
    draw("256 nodes", scene(thickened(256)));
    draw("no depth", drafted(|draft| draft.job[FAR] = 0));
    draw(
        "a guarded ball from above",
        drafted(|draft| {
            from_above(draft);
            (draft.scene, draft.job[GUARD]) = (vec![Piece::ball([1, 1, 4], 2)], 1);
        }),
    );
    draw(
        "a meet from above, with misses",
        drafted(|draft| {
            from_above(draft);
            draft.scene = met();
            draft.put(CLIP_LO, [-1, -1, -50]);
        }),
    );
    draw(
        "all layers along a diagonal",
        drafted(|draft| {
            draft.put(ORIGIN, [-30, -28, 33]);
            (draft.job[RAY], draft.job[ACROSS], draft.job[DOWN]) = (24, 22, 17);
            (draft.job[WIDTH], draft.job[HEIGHT], draft.job[FAR]) = (6, 3, 80);
            draft.scene = vec![
                ball(),
                Piece::thicken(2),
                Piece::shift([4, -3, 2]),
                Piece::cuboid([-9, -2, -1], [1, 2, 12]),
                Piece::unite(),
                Piece::cuboid([-5, -5, -5], [9, 9, 9]),
                Piece::meet(),
            ];
            draft.put(SURFACE_SHIFT, [3, 3, -2]);
            draft.put(CLIP_HI, [20, 20, 20]);
        }),
    );
    draw(
        "the ends of the ranges",
        drafted(|draft| {
            draft.put(ORIGIN, [-16_384, 16_383, 16_383]);
            (draft.job[RAY], draft.job[WIDTH], draft.job[HEIGHT], draft.job[FAR]) = (18, 3, 2, 4_095);
            draft.scene =
                vec![Piece::ball([-16_384, 16_383, -16_384], 16_383), Piece::cuboid([-16_384; 3], [-16_384; 3]), Piece::unite(), Piece::thicken(1_023)];
            draft.put(CLIP_LO, [-16_384; 3]);
            draft.put(CLIP_HI, [16_383; 3]);
            draft.put(SURFACE_SHIFT, [-16_383, 16_383, 16_383]);
            (draft.width, draft.depth, draft.heights) = (1, 3, vec![-32_768, 32_767, -3_000]);
        }),
    );
    cases
}

#[cfg(test)]
mod tests {
    use super::*;
    use crate::{answer, model};

    #[test]
    fn the_model_answers_each_as_written() {
        for case in cases() {
            assert_eq!(answer(&model::render(&case.input)), case.answer, "{}", case.name);
        }
    }

    #[test]
    fn every_refusal_has_a_case() {
        for wanted in 1..=16 {
            assert!(cases().iter().any(|case| matches!(case.answer, Answer::Refusal { number, .. } if number == wanted)), "{wanted}");
        }
    }
}
