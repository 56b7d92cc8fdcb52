//! rzCOBS, one message at a time. A [`Stream`](crate::Stream) does this by itself; a test, or a sender, may want it alone.

use crate::{ffi, Refusal, LIMIT, MOST_PER_BYTE};

/// The message of one coding, its closing zero left out.
///
/// Refuses [`Refusal::Size`], [`Refusal::Zero`] and [`Refusal::Malformed`].
pub fn decode(coding: &[u8]) -> Result<Vec<u8>, Refusal> {
    if coding.len() > LIMIT {
        return Err(Refusal::Size);
    }
    let mut message = vec![0; MOST_PER_BYTE * coding.len()];
    let written = ffi::decode_blocks(coding, &mut message)?;
    message.truncate(written);
    Ok(message)
}

/// The coding of one message, without the zero that the sender closes it with.
///
/// Decoding gives the message back with some zeros behind it, six at most. Refuses [`Refusal::Size`].
pub fn encode(message: &[u8]) -> Result<Vec<u8>, Refusal> {
    if message.len() > LIMIT {
        return Err(Refusal::Size);
    }
    let mut coding = vec![0; message.len() + message.len() / 134 + 1];
    let written = ffi::encode_blocks(message, &mut coding)?;
    coding.truncate(written);
    Ok(coding)
}
