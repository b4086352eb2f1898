//! What Rust's users have beside the sources: a draft of a text by `parse`. By hand; tested, not
//! proved.
use crate::draft_text::{DraftText, read_draft};
use crate::fault::TextFault;
use core::str::FromStr;
use dvg_frame::Draft;

/// As `read_draft`.
impl FromStr for DraftText {
    type Err = TextFault;

    fn from_str(text: &str) -> Result<DraftText, TextFault> {
        read_draft(text.as_bytes())
    }
}

/// Its operations.
impl From<DraftText> for Draft {
    fn from(text: DraftText) -> Draft {
        text.draft
    }
}
