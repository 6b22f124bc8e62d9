//! The status record.

use crate::column::to_string;
use crate::{message_text, Refusal};

/// The status record of a reply: what its SQLCA says.
#[repr(C)]
#[derive(Clone, Copy, Debug, PartialEq, Eq, Hash)]
pub struct SqlCard {
    /// Whether the reply has no SQLCA: the status is that for success.
    pub is_null: bool,
    /// SQLCODE.
    pub sqlcode: i32,
    /// SQLSTATE, five characters.
    pub sqlstate: [u8; 5],
    /// SQLERRPROC; [`SqlCard::procedure`] gives the characters that there are.
    pub sqlerrproc: [u8; 8],
    /// 8, or 0 in the status for success.
    pub sqlerrproc_length: u8,
    /// The six numbers of SQLERRD.
    pub sqlerrd: [i32; 6],
    /// 0: a description fetches no rows.
    pub rows_fetched: u64,
    /// The third of the six numbers, 0 if it is negative.
    pub rows_updated: u32,
    /// SQLWARN0 to SQLWARNA.
    pub sqlwarn: [u8; 11],
    /// Where the message's raw string lies in the reply; 0 where there is none.
    pub message_place: usize,
    /// How many bytes the raw string has; 0 where there is none.
    pub message_length: usize,
}

impl SqlCard {
    /// SQLSTATE as a string.
    pub fn state(&self) -> String {
        to_string(&self.sqlstate)
    }

    /// SQLERRPROC as a string; empty in the status for success.
    pub fn procedure(&self) -> String {
        let length = usize::from(self.sqlerrproc_length).min(self.sqlerrproc.len());
        to_string(&self.sqlerrproc[..length])
    }

    /// The message's text, read from the reply that gave the status; empty where there is none.
    ///
    /// # Errors
    /// [`Refusal::ReplyTooLong`], and [`Refusal::OutsideReply`] where the reply is another and too short.
    pub fn message_in(&self, reply: &[u8]) -> Result<String, Refusal> {
        // A text is never longer than its bytes, which lie in the reply.
        let mut characters = vec![0; self.message_length.min(reply.len())];
        let length = message_text(
            reply,
            self.message_place,
            self.message_length,
            &mut characters,
        )?;
        Ok(to_string(&characters[..length]))
    }
}
