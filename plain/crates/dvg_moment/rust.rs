//! What Rust's users have beside the sources: a default. By hand; tested, not proved.
use crate::judge::MomentJudge;

/// As `MomentJudge::new`.
impl Default for MomentJudge {
    fn default() -> MomentJudge {
        MomentJudge::new()
    }
}
