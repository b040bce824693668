//! Scripts drawn at random.

use crate::gen::Shape;
use crate::model::Entry;
use crate::moves::Move;
use crate::ops::Op;
use crate::rng::Rng;
use bavolinesk::raw::{Cursor, EntryCursor};

/// A script of random calls.
pub fn draw(rng: &mut Rng) -> Vec<Op> {
    let wild = rng.one_in(2);
    let shape = Shape::draw(rng, wild);
    let mut ops = Vec::new();
    for t in 0..2 {
        ops.push(Op::Fresh(t, shape.length(rng), rng.word() as u8));
    }
    for _ in 0..rng.between(5, 160) {
        ops.push(draw_op(rng, &shape));
    }
    ops
}

fn draw_move(rng: &mut Rng, shape: &Shape) -> Move {
    match rng.below(8) {
        0 => Move::First,
        1 | 2 => Move::Seek(shape.key(rng)),
        3..=5 => Move::Next,
        _ => Move::Prev,
    }
}

fn draw_op(rng: &mut Rng, shape: &Shape) -> Op {
    let t = rng.below(2);
    let wild_node = |rng: &mut Rng| *rng.pick(&[0, 1, 2, 3, 7, 40, 4_097, usize::MAX]);
    match rng.below(100) {
        0 if shape.wild && rng.one_in(3) => Op::Fresh(t, shape.length(rng), rng.word() as u8),
        1 if shape.wild && rng.one_in(3) => Op::Spoil(t, *rng.pick(&[1, 5, 6, 10, 11, 12, 15])),
        0..=29 => {
            let (key, number) = (shape.key(rng), shape.number(rng));
            let (kind, value) = (shape.kind(rng), shape.value(rng));
            Op::Add(
                t,
                Entry {
                    key,
                    number,
                    kind,
                    value,
                },
                shape.height(rng),
            )
        }
        30..=39 => Op::Get(t, shape.key(rng), shape.number(rng)),
        40..=45 => Op::Contains(t, shape.key(rng), shape.number(rng), shape.kind(rng)),
        46..=47 => Op::Value(t, wild_node(rng)),
        48..=50 => Op::Check(t),
        51..=62 => {
            let (on, node) = (*rng.pick(&[0, 1, 1, 1, 2, u32::MAX]), wild_node(rng));
            let from = rng.one_in(8).then_some(EntryCursor { on, node });
            Op::EntryMove(t, from, draw_move(rng, shape), shape.number(rng))
        }
        63..=69 => Op::PairGet(shape.key(rng), shape.number(rng)),
        70..=71 => Op::Keep,
        _ => {
            let (table, node) = (*rng.pick(&[0, 1, 1, 2, 2, 3, u32::MAX]), wild_node(rng));
            let from = rng.one_in(8).then_some(Cursor { table, node });
            Op::RowMove(from, draw_move(rng, shape), shape.number(rng))
        }
    }
}
