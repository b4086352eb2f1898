//! What Rust's users have beside the sources: conversions, defaults, drafts as texts and as serde
//! writes and reads them, and what it reads of faults and places, looked at. By hand; tested, not
//! proved.
use crate::checking::Checker;
use crate::draft::{Draft, DraftFull};
use crate::op::{Op, OpKind};
use core::fmt::{self, Display, Formatter};
use core::slice;
use dvg_code::Instr;
use thiserror::Error;

/// No draft may hold this: it draws another instruction than a VCTR, an SVEC or a LABS, or names an
/// address of the ROM that is over FFF.
#[derive(Clone, Copy, Debug, PartialEq, Eq, Hash, Error)]
#[error("no draft may hold this operation")]
pub struct BadOp;

/// As `Op::new`, with an error for `?`.
impl TryFrom<OpKind> for Op {
    type Error = BadOp;

    fn try_from(kind: OpKind) -> Result<Op, BadOp> {
        Op::new(kind).ok_or(BadOp)
    }
}

impl From<Op> for OpKind {
    fn from(op: Op) -> OpKind {
        op.kind()
    }
}

/// A draft with no operation.
impl Default for Draft {
    fn default() -> Draft {
        Draft::new()
    }
}

/// A draft of these operations. `DraftFull` where they are more than 511.
impl TryFrom<&[Op]> for Draft {
    type Error = DraftFull;

    fn try_from(ops: &[Op]) -> Result<Draft, DraftFull> {
        let mut draft = Draft::new();
        draft.try_extend_from_slice(ops)?;
        Ok(draft)
    }
}

/// A draft of these operations. `DraftFull` where they are more than 511.
impl FromIterator<Op> for Result<Draft, DraftFull> {
    fn from_iter<I: IntoIterator<Item = Op>>(ops: I) -> Result<Draft, DraftFull> {
        let mut draft = Draft::new();
        ops.into_iter().try_for_each(|op| draft.push(op).map(|_| ()))?;
        Ok(draft)
    }
}

/// As its line in a draft.
impl Display for Op {
    fn fmt(&self, f: &mut Formatter<'_>) -> fmt::Result {
        match self.kind() {
            OpKind::Draw(code) => match code.instr() {
                Instr::Vctr { scale, dx, dy, z } => write!(f, "vctr {scale} {dx} {dy} {z}"),
                Instr::Svec { scale, dx, dy, z } => write!(f, "svec {scale} {dx} {dy} {z}"),
                Instr::Labs { x, y, scale } => write!(f, "labs {x} {y} {scale}"),
                _ => unreachable!("no operation draws by another instruction"),
            },
            OpKind::CallRom(address) => write!(f, "callrom {address:03X}"),
            OpKind::JumpRom(address) => write!(f, "jumprom {address:03X}"),
            OpKind::Call(op) => write!(f, "call {op}"),
            OpKind::Jump(op) => write!(f, "jump {op}"),
            OpKind::Return => f.write_str("return"),
            OpKind::Halt => f.write_str("halt"),
        }
    }
}

/// As a text that `dvg check` reads: a line for each operation.
impl Display for Draft {
    fn fmt(&self, f: &mut Formatter<'_>) -> fmt::Result {
        self.into_iter().try_for_each(|op| writeln!(f, "{op}"))
    }
}

impl<'a> IntoIterator for &'a Draft {
    type Item = &'a Op;
    type IntoIter = slice::Iter<'a, Op>;

    fn into_iter(self) -> slice::Iter<'a, Op> {
        self.ops().iter()
    }
}

impl Default for Checker {
    fn default() -> Checker {
        Checker::new()
    }
}

#[cfg(feature = "serde")]
pub(crate) use forms::{FrameFaultForm, PlaceForm};

/// A draft is the list of its operations, and is refused where there are more than 511. A fault and
/// a place are looked at when they are read: operations are numbered up to 510.
#[cfg(feature = "serde")]
mod forms {
    use crate::draft::Draft;
    use crate::fault::FrameFault;
    use crate::place::Place;
    use core::fmt;
    use serde::de::{Deserialize, Deserializer, Error, SeqAccess, Visitor};
    use serde::ser::{Serialize, Serializer};

    impl Serialize for Draft {
        fn serialize<S: Serializer>(&self, serializer: S) -> Result<S::Ok, S::Error> {
            serializer.collect_seq(self)
        }
    }

    impl<'de> Deserialize<'de> for Draft {
        fn deserialize<D: Deserializer<'de>>(deserializer: D) -> Result<Draft, D::Error> {
            deserializer.deserialize_seq(Ops)
        }
    }

    struct Ops;

    impl<'de> Visitor<'de> for Ops {
        type Value = Draft;

        fn expecting(&self, f: &mut fmt::Formatter<'_>) -> fmt::Result {
            f.write_str("a list of at most 511 operations")
        }

        fn visit_seq<S: SeqAccess<'de>>(self, mut ops: S) -> Result<Draft, S::Error> {
            let mut draft = Draft::new();
            while let Some(op) = ops.next_element()? {
                draft.push(op).map_err(Error::custom)?;
            }
            Ok(draft)
        }
    }

    const OPERATION: &str = "the number of an operation is below 511";

    #[derive(serde::Deserialize)]
    #[serde(rename = "Place")]
    pub(crate) enum PlaceForm {
        InFrame(u16),
        InRom(u16),
    }

    impl TryFrom<PlaceForm> for Place {
        type Error = &'static str;

        fn try_from(form: PlaceForm) -> Result<Place, &'static str> {
            match form {
                PlaceForm::InFrame(511..) => Err(OPERATION),
                PlaceForm::InFrame(op) => Ok(Place::InFrame(op)),
                PlaceForm::InRom(0x1000..) => Err("a word address is below 4,096"),
                PlaceForm::InRom(address) => Ok(Place::InRom(address)),
            }
        }
    }

    #[derive(serde::Deserialize)]
    #[serde(rename = "FrameFault")]
    pub(crate) enum FrameFaultForm {
        Empty,
        NoLabs,
        TooLong,
        Target(u16),
        RunsOff(u16),
        OutOfRom(Place),
        TooDeep(Place),
        NoCaller(Place),
        Loops,
    }

    impl TryFrom<FrameFaultForm> for FrameFault {
        type Error = &'static str;

        fn try_from(form: FrameFaultForm) -> Result<FrameFault, &'static str> {
            Ok(match form {
                FrameFaultForm::Target(511..) | FrameFaultForm::RunsOff(511..) => {
                    return Err(OPERATION);
                }
                FrameFaultForm::Empty => FrameFault::Empty,
                FrameFaultForm::NoLabs => FrameFault::NoLabs,
                FrameFaultForm::TooLong => FrameFault::TooLong,
                FrameFaultForm::Target(op) => FrameFault::Target(op),
                FrameFaultForm::RunsOff(op) => FrameFault::RunsOff(op),
                FrameFaultForm::OutOfRom(place) => FrameFault::OutOfRom(place),
                FrameFaultForm::TooDeep(place) => FrameFault::TooDeep(place),
                FrameFaultForm::NoCaller(place) => FrameFault::NoCaller(place),
                FrameFaultForm::Loops => FrameFault::Loops,
            })
        }
    }
}
