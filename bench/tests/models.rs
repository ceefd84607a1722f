//! The walk models against the twin: two hands, one scope.

use bench::gen::model::fresh;
use bench::gen::rng::Rng;
use bench::twin::single::single;

/// Every step that a model takes the twin accepts, with the same state after
/// it; every other one it refuses, and leaves the state.
#[test]
fn models_and_twin_agree_step_by_step() {
    for number in 0..4000 {
        let rng = &mut Rng::for_case(11, number);
        let kind = 1 + (number % 4) as u8;
        let mut model = fresh(kind, rng);
        for turn in 0..80 {
            if turn == 40 && number % 3 == 0 {
                model.jump(rng);
            }
            let step = if rng.below(4) == 0 {
                model.wild(rng)
            } else {
                model.propose(rng, false)
            };
            let mut state = model.raw().to_vec();
            let mut bytes = vec![kind];
            bytes.extend(step.bytes());
            let answer = single(kind, &mut state, &bytes, &mut [0; 10]);
            assert_ne!(answer.code, 10, "kind {kind}, state {state:?}");
            assert_eq!(
                answer.code == 0,
                model.take(&step),
                "kind {kind}, step {bytes:?}"
            );
            assert_eq!(state, model.raw());
        }
    }
}

/// A flag that is neither 0 nor 1 counts as set, and is written back as 1.
#[test]
fn flags_are_written_back_as_0_or_1() {
    let mut state = [0, 0, 0, 5, 1, 1, 200];
    let answer = single(3, &mut state, &[3, 1, 3], &mut [0; 10]);
    assert_eq!((answer.code, answer.logged), (0, 6));
    assert_eq!(state, [0, 0, 0, 5, 2, 2, 1]);
    let mut state = [0, 0, 0, 5, 0, 0, 200];
    assert_eq!(
        single(3, &mut state, &[3, 5, 4, 0, 0, 0, 5], &mut [0; 10]).code,
        17
    );
    assert_eq!(state[6], 200);
}

#[test]
fn order_of_codes_at_the_single_step() {
    let code = |state: &[u8], step: &[u8], log: usize| {
        single(3, &mut state.to_vec(), step, &mut vec![0; log]).code
    };
    let unsound = [0, 0, 0, 5, 1, 2, 1];
    assert_eq!(code(&unsound, &[], 0), 6);
    assert_eq!(code(&unsound[1..], &[3, 1, 3], 10), 6);
    assert_eq!(code(&unsound, &[4, 2, 1, 0], 10), 6);
    assert_eq!(code(&unsound, &[3, 1, 3, 0], 10), 6);
    assert_eq!(code(&unsound, &[3, 1, 3], 9), 8);
    assert_eq!(code(&unsound, &[3, 1, 3], 10), 10);
    assert_eq!(code(&[0; 7], &[3, 1, 3], 10), 12);
}
