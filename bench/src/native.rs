//! The other engine, behind the same signatures as the twin's.

#[cfg(feature = "native")]
mod over_c {
    use crate::answer::{Answer, Single};

    extern "C" {
        fn ladlecomet_replay(
            file: *const u8,
            file_len: usize,
            log: *mut u8,
            log_len: usize,
            image: *mut u8,
            image_len: usize,
            figures: *mut u8,
            figures_len: usize,
        ) -> u8;
        fn ladlecomet_single(
            kind: u8,
            state: *mut u8,
            state_len: usize,
            step: *const u8,
            step_len: usize,
            log: *mut u8,
            log_len: usize,
            figures: *mut u8,
            figures_len: usize,
        ) -> u8;
    }

    /// The figure at place `at`, each 4 bytes long.
    fn figure(figures: &[u8], at: usize) -> usize {
        figures[4 * at..][..4]
            .iter()
            .fold(0, |number, &byte| number << 8 | usize::from(byte))
    }

    pub fn replay(file: &[u8], log: &mut [u8], image: &mut [u8]) -> Answer {
        let mut figures = [0; 12];
        // SAFETY: every pointer comes with the length of the slice it is taken
        // from, the slices live through the call, and the written ones are
        // lent for writing and don't overlap.
        let code = unsafe {
            ladlecomet_replay(
                file.as_ptr(),
                file.len(),
                log.as_mut_ptr(),
                log.len(),
                image.as_mut_ptr(),
                image.len(),
                figures.as_mut_ptr(),
                figures.len(),
            )
        };
        Answer {
            code,
            place: figure(&figures, 0),
            logged: figure(&figures, 1),
            imaged: figure(&figures, 2),
        }
    }

    pub fn single(kind: u8, state: &mut [u8], step: &[u8], log: &mut [u8]) -> Single {
        let mut figures = [0; 4];
        // SAFETY: as above.
        let code = unsafe {
            ladlecomet_single(
                kind,
                state.as_mut_ptr(),
                state.len(),
                step.as_ptr(),
                step.len(),
                log.as_mut_ptr(),
                log.len(),
                figures.as_mut_ptr(),
                figures.len(),
            )
        };
        Single {
            code,
            logged: figure(&figures, 0),
        }
    }
}

#[cfg(feature = "native")]
pub use over_c::{replay, single};

/// For the programs' first line: what the other engine is.
#[cfg(feature = "native")]
pub const NAME: &str = "native";

#[cfg(not(feature = "native"))]
pub use crate::stand_in::{replay, single::single};

#[cfg(not(feature = "native"))]
pub const NAME: &str = "second copy of the twin";
