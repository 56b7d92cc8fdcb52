//! defmt-decoder's stream code, unchanged, over a table that hands the message up as it is: what such a stream gives is the stream's doing
//! alone, and its private block decoder can be asked.

pub use defmt_decoder::DecodeError;

use std::cell::{Ref, RefCell};

pub struct Frame<'t> {
    pub message: Ref<'t, Vec<u8>>,
}

/// Holds the last message: one buffer for all of them, so that a stream's time is the stream's own.
#[derive(Default)]
pub struct Table {
    last: RefCell<Vec<u8>>,
}

impl Table {
    fn decode(&self, message: &[u8]) -> Result<(Frame<'_>, usize), DecodeError> {
        let mut last = self.last.borrow_mut();
        last.clear();
        last.extend_from_slice(message);
        drop(last);
        Ok((Frame { message: self.last.borrow() }, message.len()))
    }
}

pub mod stream {
    use crate::{DecodeError, Frame};

    pub trait StreamDecoder {
        fn received(&mut self, data: &[u8]);
        fn decode(&mut self) -> Result<Frame<'_>, DecodeError>;
    }

    pub mod rzcobs {
        include!("../../defmt-decoder/checked/src/stream/rzcobs.rs");

        /// The private function, for the vectors.
        pub fn decode_blocks(coding: &[u8]) -> Option<Vec<u8>> {
            rzcobs_decode(coding).ok()
        }
    }
}
