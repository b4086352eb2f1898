//! What Rust's users have beside the sources: what serde reads of entries, looked at. By hand;
//! tested, not proved.
#[cfg(feature = "serde")]
pub(crate) use forms::EntryForm;

/// As serde reads an entry, before it is looked whether its address is one of a word, and the word
/// of a finished run a HALT.
#[cfg(feature = "serde")]
mod forms {
    use crate::entry::Entry;
    use dvg_driver::Action;
    use dvg_frame::FrameFault;
    use dvg_gen::GenFault;
    use serde::Deserialize;

    const ADDRESS: &str = "a word address is below 4,096";

    #[derive(Deserialize)]
    #[serde(rename = "Entry")]
    pub(crate) enum EntryForm<S> {
        Offered,
        Refused(FrameFault),
        Busy,
        Asked,
        NothingPublished,
        Acted(Action),
        Started,
        NoStrobe,
        Low(u16, u8),
        Fetched(u16, u16),
        Done(u16, u16, S),
        Broke(u16, GenFault),
        Still,
        Cleared,
    }

    impl<S> TryFrom<EntryForm<S>> for Entry<S> {
        type Error = &'static str;

        fn try_from(form: EntryForm<S>) -> Result<Entry<S>, &'static str> {
            Ok(match form {
                EntryForm::Low(0x1000.., _)
                | EntryForm::Fetched(0x1000.., _)
                | EntryForm::Done(0x1000.., _, _)
                | EntryForm::Broke(0x1000.., _) => return Err(ADDRESS),
                EntryForm::Done(_, ..0xB000 | 0xC000.., _) => {
                    return Err("the last word of a finished run is a HALT");
                }
                EntryForm::Offered => Entry::Offered,
                EntryForm::Refused(fault) => Entry::Refused(fault),
                EntryForm::Busy => Entry::Busy,
                EntryForm::Asked => Entry::Asked,
                EntryForm::NothingPublished => Entry::NothingPublished,
                EntryForm::Acted(action) => Entry::Acted(action),
                EntryForm::Started => Entry::Started,
                EntryForm::NoStrobe => Entry::NoStrobe,
                EntryForm::Low(address, byte) => Entry::Low(address, byte),
                EntryForm::Fetched(address, word) => Entry::Fetched(address, word),
                EntryForm::Done(address, word, drew) => Entry::Done(address, word, drew),
                EntryForm::Broke(address, fault) => Entry::Broke(address, fault),
                EntryForm::Still => Entry::Still,
                EntryForm::Cleared => Entry::Cleared,
            })
        }
    }
}
