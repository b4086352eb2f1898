//! A frame for the programs of src/bin.

use dvg_code::{Code, Instr};
use dvg_frame::{Draft, Op, OpKind};

/// A frame of one vector. None where a field is out of its range, or the draft is full.
pub fn one_vector() -> Option<Draft> {
    let labs = Instr::Labs { x: 512, y: 400, scale: 0 };
    let vector = Instr::Vctr { scale: 9, dx: -100, dy: 100, z: 7 };
    let mut draft = Draft::new();
    draft.push(Op::new(OpKind::Draw(Code::new(labs)?))?).ok()?;
    draft.push(Op::new(OpKind::Draw(Code::new(vector)?))?).ok()?;
    draft.push(Op::new(OpKind::Halt)?).ok()?;
    Some(draft)
}
