//! What Rust's users have beside the sources: defaults, and what serde writes and reads of actions
//! and of states, looked at. By hand; tested, not proved.
use crate::driver::Driver;
use crate::state::{DriverState, Phase};
use dvg_frame::Draft;
use dvg_mem::Half;

/// As `Driver::new`.
impl Default for Driver {
    fn default() -> Driver {
        Driver::new()
    }
}

/// As of a new driver.
impl Default for DriverState {
    fn default() -> DriverState {
        DriverState {
            phase: Phase::Start,
            half: Half::H0,
            flipped: false,
            frame: Draft::new(),
            frame_half: Half::H1,
            left: 0,
        }
    }
}

#[cfg(feature = "serde")]
pub(crate) use forms::ActionForm;

/// As serde reads an action, before it is looked whether its address is one of the RAM; and a
/// state, before it is looked whether its parts fit together, but for the check of the frame.
#[cfg(feature = "serde")]
mod forms {
    use crate::action::Action;
    use crate::state::{DriverState, Phase};
    use dvg_frame::{Draft, OpKind};
    use dvg_mem::Half;
    use serde::de::Error;
    use serde::{Deserialize, Deserializer, Serialize, Serializer};

    #[derive(Deserialize, Serialize)]
    #[serde(remote = "Phase", rename = "Phase")]
    enum PhaseForm {
        Start,
        Booting,
        Resting,
        Writing,
        Flipping,
        Waiting,
        Sending,
    }

    impl Serialize for Phase {
        fn serialize<S: Serializer>(&self, serializer: S) -> Result<S::Ok, S::Error> {
            PhaseForm::serialize(self, serializer)
        }
    }

    impl<'de> Deserialize<'de> for Phase {
        fn deserialize<D: Deserializer<'de>>(deserializer: D) -> Result<Phase, D::Error> {
            PhaseForm::deserialize(deserializer)
        }
    }

    #[derive(Deserialize, Serialize)]
    #[serde(remote = "DriverState", rename = "DriverState")]
    struct StateForm {
        phase: Phase,
        half: Half,
        flipped: bool,
        frame: Draft,
        frame_half: Half,
        left: u16,
    }

    impl Serialize for DriverState {
        fn serialize<S: Serializer>(&self, serializer: S) -> Result<S::Ok, S::Error> {
            StateForm::serialize(self, serializer)
        }
    }

    impl<'de> Deserialize<'de> for DriverState {
        fn deserialize<D: Deserializer<'de>>(deserializer: D) -> Result<DriverState, D::Error> {
            let state = StateForm::deserialize(deserializer)?;
            let fits = match state.phase {
                Phase::Start | Phase::Booting | Phase::Flipping => !state.flipped,
                Phase::Waiting | Phase::Sending => state.flipped,
                Phase::Writing => {
                    state.frame_half == state.half.other()
                        && state.left <= 2 * words_of(&state.frame)
                }
                Phase::Resting => true,
            };
            fits.then_some(state).ok_or_else(|| D::Error::custom("the parts of a driver's state don't fit"))
        }
    }

    /// Returns the number of words of a draft: each operation is one, or two.
    fn words_of(draft: &Draft) -> u16 {
        let words = draft.into_iter().map(|op| match op.kind() {
            OpKind::Draw(code) => code.word_count(),
            _ => 1,
        });
        words.sum()
    }

    #[derive(Deserialize)]
    #[serde(rename = "Action")]
    pub(crate) enum ActionForm {
        Peek,
        Wrote(u16, u8),
        Read(bool),
        Sent,
        Idle,
    }

    impl TryFrom<ActionForm> for Action {
        type Error = &'static str;

        fn try_from(form: ActionForm) -> Result<Action, &'static str> {
            match form {
                ActionForm::Peek => Ok(Action::Peek),
                ActionForm::Wrote(0x800.., _) => Err("a byte address of the RAM is below 2,048"),
                ActionForm::Wrote(address, byte) => Ok(Action::Wrote(address, byte)),
                ActionForm::Read(halted) => Ok(Action::Read(halted)),
                ActionForm::Sent => Ok(Action::Sent),
                ActionForm::Idle => Ok(Action::Idle),
            }
        }
    }
}
