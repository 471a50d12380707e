//! The proved library, by its C functions.

use crate::seasons::Call;
use crate::steps::Step;

// The functions of each kind, by their names.
macro_rules! kinds {
    ($($steps:ident, $rounds:ident, $season:ident, $seasons:ident;)*) => {
        extern "C" {
            $(
                fn $steps(steps: *const Step, count: usize, text: *mut u8, room: usize) -> usize;
                fn $rounds(
                    before: *const Step,
                    m: usize,
                    call: u32,
                    work: *const Step,
                    n: usize,
                    times: u32,
                ) -> u64;
                fn $season(calls: *const Call, count: usize, text: *mut u8, room: usize) -> usize;
                fn $seasons(calls: *const Call, count: usize, times: u32) -> u64;
            )*
        }
    };
}

kinds! {
    govdrez_tree_steps, govdrez_tree_rounds, govdrez_tree_season, govdrez_tree_seasons;
    govdrez_vector_steps, govdrez_vector_rounds, govdrez_vector_season, govdrez_vector_seasons;
}

extern "C" {
    fn govdrez_record_copies(steps: *const Step, count: usize, times: u32) -> u64;
}

/// The two kinds of the library.
#[derive(Clone, Copy)]
pub enum Proved {
    Trees,
    Vectors,
}

// SAFETY of each call: the slices live through the call, which keeps no pointer; a text may be any bytes.
impl Proved {
    /// The lines of a run of steps.
    pub fn steps(self, steps: &[Step], room: usize) -> String {
        let run = match self {
            Proved::Trees => govdrez_tree_steps,
            Proved::Vectors => govdrez_vector_steps,
        };
        told(room, |text| unsafe {
            run(steps.as_ptr(), steps.len(), text.as_mut_ptr(), text.len())
        })
    }

    /// The sum over the first steps and one call with the numbers of each step of the work, `times` times.
    pub fn rounds(self, before: &[Step], call: u32, work: &[Step], times: u32) -> u64 {
        let run = match self {
            Proved::Trees => govdrez_tree_rounds,
            Proved::Vectors => govdrez_vector_rounds,
        };
        unsafe {
            run(
                before.as_ptr(),
                before.len(),
                call,
                work.as_ptr(),
                work.len(),
                times,
            )
        }
    }

    /// The lines of a season.
    pub fn season(self, calls: &[Call], room: usize) -> String {
        let run = match self {
            Proved::Trees => govdrez_tree_season,
            Proved::Vectors => govdrez_vector_season,
        };
        told(room, |text| unsafe {
            run(calls.as_ptr(), calls.len(), text.as_mut_ptr(), text.len())
        })
    }

    /// The sum over a season made `times` times.
    pub fn seasons(self, calls: &[Call], times: u32) -> u64 {
        let run = match self {
            Proved::Trees => govdrez_tree_seasons,
            Proved::Vectors => govdrez_vector_seasons,
        };
        unsafe { run(calls.as_ptr(), calls.len(), times) }
    }
}

/// Copies records of 296 bytes among 128.
pub fn record_copies(steps: &[Step], times: u32) -> u64 {
    unsafe { govdrez_record_copies(steps.as_ptr(), steps.len(), times) }
}

fn told(room: usize, run: impl FnOnce(&mut [u8]) -> usize) -> String {
    let mut text = vec![0; room];
    let length = run(&mut text);
    text.truncate(length);
    String::from_utf8(text).expect("the library writes text")
}
