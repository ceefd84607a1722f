//! Schedules of 4,096 steps that are accepted in full, for measuring.

use super::files;
use super::flag::Flag;
use super::flat::Flat;
use super::lock::Lock;
use super::model::{Model, Move};
use super::rng::Rng;

pub const STEPS: usize = 4096;

/// How the steps of a schedule follow each other.
#[derive(Clone, Copy, PartialEq)]
pub enum Shape {
    /// The same round again and again, as a well run program would go.
    Rounds,
    /// A seeded walk, in which no branch can be foreseen.
    Walk,
}

/// The largest machine of a kind with a full schedule.
pub fn schedule(kind: u8, shape: Shape) -> Vec<u8> {
    let mut model: Box<dyn Model> = match kind {
        1 => Box::new(Flat::new(16)),
        2 => Box::new(Lock::new(16, 7)),
        3 => Box::new(super::counting::Counting::new()),
        _ => Box::new(Flag::new(8, 0)),
    };
    if shape == Shape::Walk {
        return files::full_walk(kind, model.as_mut(), &mut Rng::new(u64::from(kind)));
    }
    let mut file = vec![1, 0, 0, kind];
    model.parameters(&mut file);
    let mut steps = Vec::new();
    let mut number = 0;
    while steps.len() < STEPS {
        match kind {
            1 => flat_round(&mut steps, number),
            2 => lock_round(&mut steps, number),
            3 => counting_round(&mut steps, number),
            _ => flag_round(&mut steps, number),
        }
        number += 1;
    }
    for step in &steps[..STEPS] {
        file.extend(step.bytes());
    }
    let body = file.len() as u16 - 3;
    file[1..3].copy_from_slice(&body.to_be_bytes());
    file
}

/// All clients ask, all are gathered and answered, all take their answers.
fn flat_round(steps: &mut Vec<Move>, number: u32) {
    let rid = |j: u8| 16 * number + u32::from(j);
    steps.extend((0..16).map(|j| Move::new(1).byte(j).number(rid(j)).number(number)));
    steps.extend((0..16).map(|_| Move::new(3)));
    steps.push(Move::new(5));
    steps.extend((0..16).map(|j| Move::new(6).number(rid(j)).number(!number)));
    steps.push(Move::new(8));
    steps.extend((0..16).map(|j| Move::new(2).byte(j)));
}

/// A reader at each cell, then a writer that leaves another record.
fn lock_round(steps: &mut Vec<Move>, number: u32) {
    let t = 7 + number;
    for r in 0..16 {
        steps.push(Move::new(5).byte(r));
        steps.push(Move::new(6).byte(r));
        steps.push(Move::new(7).byte(r).number(t));
    }
    steps.push(Move::new(1));
    steps.extend((0..16).map(|_| Move::new(2)));
    steps.push(Move::new(3));
    steps.push(Move::new(4).number(t + 1));
}

/// A value, ten refs to it, none, and the value back.
fn counting_round(steps: &mut Vec<Move>, number: u32) {
    steps.push(Move::new(1).number(number));
    steps.extend((0..10).map(|_| Move::new(3)));
    steps.extend((0..10).map(|_| Move::new(4).number(number)));
    steps.push(Move::new(2));
}

/// A plain flip, two that cancel out, a flip back, and a look by each thread.
fn flag_round(steps: &mut Vec<Move>, number: u32) {
    let thread = |more: u32| ((number + more) % 8) as u8;
    let (a, b, c) = (thread(0), thread(1), thread(2));
    let course = [
        (1, a),
        (2, a),
        (2, a),
        (1, b),
        (2, b),
        (2, b),
        (2, b),
        (2, a),
        (2, a),
        (1, b),
        (2, b),
        (2, a),
        (2, a),
        (1, c),
        (2, c),
        (2, c),
    ];
    steps.extend(course.map(|(tag, k)| Move::new(tag).byte(k)));
    steps.extend((0..8).map(|k| Move::new(3).byte(k)));
}
