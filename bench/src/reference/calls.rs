//! The calls on a sheet, and what each answers.

use super::drawing::Drawing;
use super::marker::Slip;
use super::refusal::Refusal;
use std::fmt;

#[derive(Clone, Copy, Debug, PartialEq, Eq)]
pub enum Call {
    Place { task: usize, machine: usize },
    Try { task: usize, machine: usize },
    Keep,
    Strike,
    TakeBack,
    Fill,
    HandIn,
}

pub enum Answer {
    Finish(u64),
    Kept,
    TookBack(usize),
    Length(u64),
    Slip(Slip),
    NotAllowed,
    Refused(Refusal),
}

impl fmt::Display for Answer {
    fn fmt(&self, f: &mut fmt::Formatter<'_>) -> fmt::Result {
        match self {
            Answer::Finish(tick) => write!(f, "finish {tick}"),
            Answer::Kept => write!(f, "kept"),
            Answer::TookBack(task) => write!(f, "task {task}"),
            Answer::Length(length) => write!(f, "length {length}"),
            Answer::Slip(slip) => write!(f, "{slip}"),
            Answer::NotAllowed => write!(f, "not allowed"),
            Answer::Refused(refusal) => write!(f, "refused {refusal}"),
        }
    }
}

/// Which calls a sheet allows.
#[derive(Clone, Copy, Debug, PartialEq, Eq)]
enum State {
    Drawn,
    /// The last step is on trial.
    OnTrial,
    HandedIn,
}

impl State {
    fn allows(self, call: Call) -> bool {
        let ends_a_trial = matches!(call, Call::Keep | Call::Strike);
        match self {
            State::Drawn => !ends_a_trial,
            State::OnTrial => ends_a_trial,
            State::HandedIn => false,
        }
    }
}

/// A sheet, on which calls are carried out.
pub struct Sheet<'a> {
    drawing: Drawing<'a>,
    state: State,
}

impl<'a> Sheet<'a> {
    pub fn new(drawing: Drawing<'a>) -> Sheet<'a> {
        Sheet {
            drawing,
            state: State::Drawn,
        }
    }

    pub fn drawing(&self) -> &Drawing<'a> {
        &self.drawing
    }

    pub fn is_handed_in(&self) -> bool {
        self.state == State::HandedIn
    }

    pub fn carry_out(&mut self, call: Call) -> Answer {
        if !self.state.allows(call) {
            return Answer::NotAllowed;
        }
        self.answer(call).unwrap_or_else(Answer::Refused)
    }

    fn answer(&mut self, call: Call) -> Result<Answer, Refusal> {
        Ok(match call {
            Call::Place { task, machine } => Answer::Finish(self.drawing.place(task, machine)?),
            Call::Try { task, machine } => {
                let finish = self.drawing.place(task, machine)?;
                self.state = State::OnTrial;
                Answer::Finish(finish)
            }
            Call::Keep => {
                self.state = State::Drawn;
                Answer::Kept
            }
            Call::Strike => {
                self.state = State::Drawn;
                Answer::TookBack(self.drawing.take_back()?)
            }
            Call::TakeBack => Answer::TookBack(self.drawing.take_back()?),
            Call::Fill => Answer::Length(self.drawing.fill()?),
            Call::HandIn => {
                self.state = State::HandedIn;
                Answer::Slip(self.drawing.slip()?)
            }
        })
    }
}
