//! Drafts made in code of steps: operations call and jump to each other by name, so that nobody
//! counts them.
#![no_std]

extern crate plain_std as std;

mod drafts {
//! The draft of a list of steps.
use crate::fault::StepsFault;
use crate::step::Step;
use dvg_frame::{Draft, MAX_OPS, Op, OpKind};

// Returns the number of the operation that `steps` give the name `name`, or `None` where they give
// it to none.
fn number_of(steps: &[Step], name: &str) -> Option<u16> {
    let mut number = 0;
    for step in steps {
        if step.names(name) {
            return Some(number);
        }
        if step.is_operation() {
            number += 1;
        }
    }
    None
}

// Returns the place of the first of `steps` that gives a name which an earlier one gives.
fn given_again(steps: &[Step]) -> Option<usize> {
    for (place, step) in steps.iter().enumerate() {
        if let Step::Name(name) = step {
            if number_of(&steps[..place], name).is_some() {
                return Some(place);
            }
        }
    }
    None
}

// Returns the operation that `step` is, or `None` where it uses a name that none of `steps` gives.
fn operation(steps: &[Step], step: &Step) -> Option<Op> {
    match step {
        Step::Op(op) => Some(*op),
        Step::Call(name) => match number_of(steps, name) {
            Some(number) => Op::new(OpKind::Call(number)),
            None => None,
        },
        Step::Jump(name) => match number_of(steps, name) {
            Some(number) => Op::new(OpKind::Jump(number)),
            None => None,
        },
        Step::Name(_) => unreachable!(),
    }
}

/// Returns the draft whose operations are those of `steps`, in order. Each call and each jump has
/// the number of the operation that its name stands before. No memory is taken. The time grows with
/// the square of the number of steps.
///
/// - `Full`: there are more than 511 operations.
/// - `Twice`: else, this step is the first that gives a name which an earlier one gave.
/// - `Unknown`: else, this step is the first that calls or jumps to a name which no step gives.
///
/// A name after the last operation names one that doesn't exist. The check of a draft refuses that
/// where it is used.
pub fn draft_of(steps: &[Step]) -> Result<Draft, StepsFault> {
    if steps.iter().filter(|step| step.is_operation()).count() > MAX_OPS {
        return Err(StepsFault::Full);
    }
    if let Some(place) = given_again(steps) {
        return Err(StepsFault::Twice(place));
    }
    let mut draft = Draft::new();
    for (place, step) in steps.iter().enumerate() {
        if step.is_operation() {
            let Some(op) = operation(steps, step) else {
                return Err(StepsFault::Unknown(place));
            };
            draft.push(op).unwrap();
        }
    }
    Ok(draft)
}
}
mod fault {
//! What is wrong with a list of steps.
use thiserror::Error;

/// Why no draft is made of steps. They are counted from 0 (this project's own choice).
#[derive(Clone, Copy, Debug, PartialEq, Eq, Error, Hash)]
pub enum StepsFault {
    /// There are more than 511 operations.
    #[error("there are more than 511 operations")]
    Full,
    /// This step gives a name that an earlier one has given.
    #[error("step {0} gives a name that was given before")]
    Twice(usize),
    /// This step calls or jumps to a name that no step gives.
    #[error("step {0} calls or jumps to a name that no step gives")]
    Unknown(usize),
}
}
mod step {
//! The steps of a list of operations by name.
use dvg_frame::Op;

/// A step: an operation, or the name of the one that comes next.
#[derive(Clone, Copy, Debug, PartialEq, Eq, Hash)]
pub enum Step<'a> {
    /// Names the operation that comes next.
    Name(&'a str),
    /// An operation.
    Op(Op),
    /// Calls the subroutine that begins at the operation of this name.
    Call(&'a str),
    /// Jumps to the operation of this name.
    Jump(&'a str),
}

impl<'a> Step<'a> {
    // Returns whether the step is an operation.
    pub(crate) fn is_operation(&self) -> bool {
        !matches!(self, Step::Name(_))
    }

    // Returns whether the step gives the name `name`.
    pub(crate) fn names(&self, name: &str) -> bool {
        match self {
            Step::Name(given) => *given == name,
            _ => false,
        }
    }
}
}

pub use drafts::draft_of;
pub use fault::StepsFault;
pub use step::Step;
