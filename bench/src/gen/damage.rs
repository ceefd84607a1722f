//! Damaged copies of sound files.

use super::files::Case;
use super::rng::Rng;

/// Puts one kind of damage into a file, at times two.
pub fn apply(case: &mut Case, rng: &mut Rng) {
    one(case, rng);
    if rng.below(5) == 0 {
        one(case, rng);
    }
}

fn one(case: &mut Case, rng: &mut Rng) {
    match rng.below(13) {
        0 => torn(case, rng),
        1 => {
            torn(case, rng);
            case.mend();
        }
        2 => flipped(case, rng),
        3 => wrong_length(case, rng),
        4 => set(case, 0, rng.pick(&[0, 2, 3, 128, 255])),
        5 => case.file.extend([0, 1, 3].iter().take(1 + rng.below(3))),
        6 => {
            let tail = [rng.byte(), rng.byte(), rng.byte()];
            case.file.extend(&tail[..1 + rng.below(3)]);
            case.mend();
        }
        7 => step_length(case, rng),
        8 => step_tag(case, rng),
        9 | 10 => parameter(case, rng),
        11 => set(case, 3, rng.pick(&[0, 5, 6, 128, 255])),
        _ => {
            // A parameter that is missing, or nothing after them.
            case.file.truncate(4 + rng.below(6));
            case.mend();
        }
    }
}

fn set(case: &mut Case, at: usize, byte: u8) {
    if let Some(place) = case.file.get_mut(at) {
        *place = byte;
    }
}

fn torn(case: &mut Case, rng: &mut Rng) {
    let len = rng.below(case.file.len() + 1);
    case.file.truncate(len);
}

fn flipped(case: &mut Case, rng: &mut Rng) {
    for _ in 0..1 + rng.below(3) {
        if !case.file.is_empty() {
            let at = rng.below(case.file.len());
            case.file[at] ^= 1 << rng.below(8);
        }
    }
}

fn wrong_length(case: &mut Case, rng: &mut Rng) {
    if case.file.len() < 3 {
        return;
    }
    let body = u16::from_be_bytes([case.file[1], case.file[2]]);
    let wrong = match rng.below(5) {
        0 => body.wrapping_add(1),
        1 => body.wrapping_sub(1),
        2 => body.swap_bytes(),
        3 => body.wrapping_add(3),
        _ => rng.draw() as u16,
    };
    case.file[1..3].copy_from_slice(&wrong.to_be_bytes());
}

fn step_length(case: &mut Case, rng: &mut Rng) {
    if case.starts.is_empty() {
        return;
    }
    let at = rng.pick(&case.starts);
    let Some(&length) = case.file.get(at) else {
        return;
    };
    let wrong = match rng.below(5) {
        0 => 0,
        1 => length.wrapping_add(1),
        2 => length.wrapping_sub(1),
        3 => 255,
        _ => rng.pick(&[1, 2, 5, 6, 9, 10]),
    };
    case.file[at] = wrong;
}

fn step_tag(case: &mut Case, rng: &mut Rng) {
    if case.starts.is_empty() {
        return;
    }
    let at = rng.pick(&case.starts) + 1;
    let last = [8, 7, 4, 3][usize::from(case.kind) - 1];
    // Now and then a known tag, whose length is another as a rule.
    let tag = rng.pick(&[0, last + 1, last, 255, 1, 2, 9]);
    set(case, at, tag);
}

/// The limits of the first parameter, and values on both sides of them.
fn parameter(case: &mut Case, rng: &mut Rng) {
    let limit = if case.kind == 4 { 8 } else { 16 };
    let near = [0, 1, limit - 1, limit, limit + 1, limit + 1, 128, 255];
    set(case, 4, rng.pick(&near));
    if case.kind == 4 && rng.below(2) == 0 {
        set(case, 5, rng.pick(&[0, 1, 2, 255]));
    }
}
