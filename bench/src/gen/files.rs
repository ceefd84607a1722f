//! Whole schedule files with the buffers to replay them into.

use super::damage;
use super::model::{fresh, Model, Move};
use super::rng::Rng;

const MAX_STEPS: usize = 4096;
const MAX_BODY: usize = 49_152;

/// A file, the sizes of its buffers, and what it was made from.
#[derive(Default)]
pub struct Case {
    /// The kind it was made for; damage may have changed the file's own.
    pub kind: u8,
    pub file: Vec<u8>,
    pub log: usize,
    pub image: usize,
    /// Where each step begins, so that damage can find it.
    pub starts: Vec<usize>,
}

/// A file of as many enabled steps as a file may have.
pub fn full_walk(kind: u8, model: &mut dyn Model, rng: &mut Rng) -> Vec<u8> {
    let mut case = Case {
        kind,
        ..Case::default()
    };
    case.begin(model);
    case.enabled(model, rng, MAX_STEPS, true);
    case.mend();
    case.file
}

/// Kind of the file and tag of a step, for a file that was read to its end.
pub fn step_at(file: &[u8], place: usize) -> (u8, u8) {
    let kind = file[3];
    let parameters = [1, 5, 0, 2][usize::from(kind) - 1];
    let mut at = 4 + parameters;
    for _ in 0..place {
        at += 1 + usize::from(file[at]);
    }
    (kind, file[at + 1])
}

impl Case {
    /// Makes case `number` of a seed, in the room of the one before.
    pub fn make(&mut self, seed: u64, number: u64) {
        let rng = &mut Rng::for_case(seed, number);
        self.kind = 1 + (number % 4) as u8;
        let mut model = fresh(self.kind, rng);
        self.begin(model.as_ref());
        self.shape(model.as_mut(), rng);
        self.buffers(rng);
    }

    /// Version, room for the length, kind, parameters.
    fn begin(&mut self, model: &dyn Model) {
        self.file.clear();
        self.starts.clear();
        self.file.extend([1, 0, 0, self.kind]);
        model.parameters(&mut self.file);
    }

    fn shape(&mut self, model: &mut dyn Model, rng: &mut Rng) {
        match rng.below(10_000) {
            0..=2499 => self.walk(model, rng, false),
            2500..=6099 => self.refusal(model, rng),
            6100..=6399 => self.wild(model, rng),
            6400..=6649 => self.counters(model, rng),
            6650..=6849 => self.long(model, rng),
            6850..=6949 => self.surplus(model, rng),
            6950..=7099 => return self.longest(model, rng),
            _ => {
                self.walk(model, rng, true);
                self.mend();
                return damage::apply(self, rng);
            }
        }
        self.mend();
    }

    fn push(&mut self, step: &Move) {
        self.starts.push(self.file.len());
        self.file.extend(step.bytes());
    }

    /// Writes the body's length into the front bytes.
    pub fn mend(&mut self) {
        if let Some(body) = self.file.len().checked_sub(3) {
            self.file[1..3].copy_from_slice(&(body as u16).to_be_bytes());
        }
    }

    /// Up to `steps` enabled steps; fewer when the machine has come to a halt.
    fn enabled(&mut self, model: &mut dyn Model, rng: &mut Rng, steps: usize, patient: bool) {
        for _ in 0..steps {
            let found = (0..64).find_map(|_| {
                let step = model.propose(rng, patient);
                model.take(&step).then_some(step)
            });
            match found {
                Some(step) => self.push(&step),
                None => return,
            }
        }
    }

    fn walk(&mut self, model: &mut dyn Model, rng: &mut Rng, brief: bool) {
        let most = if brief {
            12
        } else {
            rng.pick(&[4, 12, 12, 24, 24, 40, 120])
        };
        let steps = rng.below(most + 1);
        let patient = rng.below(2) == 0;
        self.enabled(model, rng, steps, patient);
    }

    /// A walk, a step that is disabled, and some that must not be run.
    fn refusal(&mut self, model: &mut dyn Model, rng: &mut Rng) {
        self.walk(model, rng, false);
        for _ in 0..20 {
            let step = model.wild(rng);
            self.push(&step);
            if !model.take(&step) {
                break;
            }
        }
        for _ in 0..rng.below(4) {
            self.push(&model.wild(rng));
        }
    }

    fn wild(&mut self, model: &mut dyn Model, rng: &mut Rng) {
        for _ in 0..rng.below(12) {
            self.push(&model.wild(rng));
        }
    }

    /// Drives a counter to its limit and, as a rule, over it.
    fn counters(&mut self, model: &mut dyn Model, rng: &mut Rng) {
        self.enabled(model, rng, 3, true);
        if self.kind == 3 && model.raw()[6] == 0 {
            let step = Move::new(1).number(rng.number());
            model.take(&step);
            self.push(&step);
        }
        let cell = rng.index(1);
        let rises = 250 + rng.below(10);
        for _ in 0..rises {
            let step = match self.kind {
                2 => Move::new(5).byte(cell),
                3 => Move::new(3),
                _ => model.propose(rng, true),
            };
            self.push(&step);
            model.take(&step);
            if self.kind == 2 && rng.below(4) == 0 {
                let step = Move::new(6).byte(cell);
                if model.take(&step) {
                    self.push(&step);
                }
            }
        }
        self.enabled(model, rng, 6, true);
        self.push(&model.wild(rng));
    }

    /// As many steps as a file may have; half of them with a late refusal.
    fn long(&mut self, model: &mut dyn Model, rng: &mut Rng) {
        let steps = if rng.below(2) == 0 {
            MAX_STEPS
        } else {
            rng.below(MAX_STEPS)
        };
        self.enabled(model, rng, steps, true);
        while self.starts.len() < MAX_STEPS {
            self.push(&model.wild(rng));
        }
    }

    /// One step too many, or a few bytes that are no step.
    fn surplus(&mut self, model: &mut dyn Model, rng: &mut Rng) {
        let steps = rng.below(200);
        self.enabled(model, rng, steps, true);
        let filler = model.propose(rng, true);
        while self.starts.len() < MAX_STEPS {
            self.push(&filler);
        }
        match rng.below(3) {
            0 => self.push(&filler),
            1 => self.file.push(rng.byte()),
            _ => self.file.extend([0; 5]),
        }
    }

    /// Bodies at their limit and over it, and over what the length can say.
    fn longest(&mut self, model: &mut dyn Model, rng: &mut Rng) {
        let body = match rng.below(8) {
            0 => MAX_BODY,
            1 => MAX_BODY - 1,
            2..=4 => MAX_BODY + 1,
            5 => 65_535,
            6 => MAX_BODY + 1 + rng.below(65_535 - MAX_BODY),
            _ => 65_536 + rng.below(3),
        };
        let filler = model.propose(rng, true);
        while self.file.len() + 11 <= body + 3 && self.starts.len() < MAX_STEPS {
            self.push(&filler);
        }
        let last = rng.byte();
        self.file.resize(body + 3, last);
        self.mend();
        match rng.below(12) {
            0 => self.file[0] = rng.byte(),
            1 => self.file[3] = rng.byte(),
            _ => {}
        }
    }

    /// Exactly enough, more, one byte short, none.
    fn buffers(&mut self, rng: &mut Rng) {
        let enough = 10 * self.starts.len().min(MAX_STEPS);
        self.log = match rng.below(40) {
            0 => enough.saturating_sub(1),
            1 => 0,
            2..=15 => enough + 1 + rng.below(40),
            16..=19 => enough + 1000,
            _ => enough,
        };
        self.image = match rng.below(60) {
            0 => 511,
            1 => rng.below(512),
            2..=20 => 513 + rng.below(100),
            _ => 512,
        };
    }
}
