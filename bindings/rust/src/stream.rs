use crate::ffi::{self, State};
use crate::{Book, Frame, Refusal, LIMIT, MOST_PER_BYTE, MOST_ROWS, ROW_WORDS};
use std::fmt;

/// How much memory a [`Stream`] has. It takes it once, and no input makes it take more.
#[derive(Clone, Copy, Debug, PartialEq, Eq)]
pub struct Sizes {
    /// Bytes received and not decoded yet, [`LIMIT`] at most. A longer message, in its coding, is dropped.
    pub store: usize,
    /// Rows of a message's arguments; more than [`MOST_ROWS`] are not used.
    pub rows: usize,
    /// Bytes of a message's text, and again of its timestamp's.
    pub text: usize,
}

impl Default for Sizes {
    /// Those of document 01's program: 4,096 bytes, 1,024 rows, 32,768 bytes.
    fn default() -> Sizes {
        Sizes {
            store: 4096,
            rows: MOST_ROWS,
            text: 32768,
        }
    }
}

/// What a link brings, taken apart into messages: in the place of defmt-decoder's `StreamDecoder`.
///
/// Give it each piece with [`received`](Stream::received), say with [`gap`](Stream::gap) where bytes were lost, and call
/// [`decode`](Stream::decode) until it has no frame left. As long as each loss is told, no frame is ever made of the head of one
/// message and the tail of another: that is proved of the code behind this crate.
pub struct Stream {
    book: Book,
    state: State,
    store: Vec<u8>,
    message: Vec<u8>,
    rows: Vec<u64>,
    work: Vec<u64>,
    text: Vec<u8>,
    timestamp: Vec<u8>,
}

impl Stream {
    /// A fresh stream, with [`Sizes::default`].
    pub fn new(book: &Book) -> Stream {
        Stream::sized(book, Sizes::default())
    }

    /// A fresh stream with so much memory. Refuses [`Refusal::Size`] for a store over [`LIMIT`].
    pub fn with_sizes(book: &Book, sizes: Sizes) -> Result<Stream, Refusal> {
        if sizes.store > LIMIT {
            return Err(Refusal::Size);
        }
        Ok(Stream::sized(book, sizes))
    }

    fn sized(book: &Book, sizes: Sizes) -> Stream {
        let words = ROW_WORDS * sizes.rows.min(MOST_ROWS);
        Stream {
            book: book.clone(),
            state: State {
                held: 0,
                hunting: 0,
            },
            store: vec![0; sizes.store],
            // so that no message is too long for it
            message: vec![0; MOST_PER_BYTE * sizes.store],
            rows: vec![0; words],
            work: vec![0; words],
            text: vec![0; sizes.text],
            timestamp: vec![0; sizes.text],
        }
    }

    /// The book that the stream decodes by.
    pub fn book(&self) -> &Book {
        &self.book
    }

    /// How many bytes are held: those of frames not decoded yet, and of the unfinished one.
    pub fn held(&self) -> usize {
        usize::try_from(self.state.held).unwrap_or(usize::MAX)
    }

    /// How long a piece may be and certainly find room.
    pub fn room(&self) -> usize {
        self.store.len().saturating_sub(self.held())
    }

    /// Takes in a piece of what the link brought, cut anywhere.
    ///
    /// Refuses [`Refusal::Size`] for a piece over [`LIMIT`], and [`Refusal::Full`] where the store has not enough room; the stream is
    /// then as before. On `Full`, decode all frames and give the piece again. If it is `Full` once more, cut the piece to
    /// [`room`](Stream::room); if there is no room at all, the unfinished message is longer than the store: call
    /// [`gap`](Stream::gap), which drops it, and give the piece again. Pieces of 1,024 bytes, with all frames decoded after each, need
    /// only the last of these.
    pub fn received(&mut self, piece: &[u8]) -> Result<(), Refusal> {
        ffi::receive(&mut self.state, &mut self.store, piece)
    }

    /// Says that bytes were lost between the last piece and the next: the link was down, or a buffer ran over.
    ///
    /// Drops the unfinished message, and all bytes that come up to the next zero. Whole frames that were not decoded yet stay. A call where
    /// nothing was lost costs a message at most, and joins nothing.
    pub fn gap(&mut self) {
        if ffi::gap(&mut self.state, &mut self.store).is_err() {
            self.forget();
        }
    }

    /// The next frame, `Ok(None)` where no whole one is held.
    ///
    /// An error is about one frame, which is dropped; call again for the next one. [`Refusal::Malformed`]: its blocks do not fit, its
    /// message breaks a rule or ends too early, or no entry has its index. [`Refusal::Format`], [`Refusal::Depth`],
    /// [`Refusal::Rows`], [`Refusal::Size`]: the book's texts, or the message, are beyond the limits.
    pub fn decode(&mut self) -> Result<Option<Frame<'_>>, Refusal> {
        let length = match ffi::take(&mut self.state, &mut self.store, &mut self.message) {
            Ok(length) => length,
            Err(Refusal::Wait) => return Ok(None),
            Err(Refusal::Malformed) => return Err(Refusal::Malformed),
            Err(refusal) => {
                self.forget();
                return Err(refusal);
            }
        };
        let message = self.message.get(..length).unwrap_or_default();
        let book = self.book.bytes();
        let counts = ffi::decode(book, message, &mut self.rows).map_err(through_a_stream)?;
        let text = ffi::text(book, message, false, &mut self.work, &mut self.text);
        let timestamp = if self.book.has_clock() {
            ffi::text(book, message, true, &mut self.work, &mut self.timestamp).map(Some)
        } else {
            Ok(None)
        };
        let all_rows = self.rows.get(..counts.all_rows.saturating_mul(ROW_WORDS));
        Ok(Some(Frame::new(
            &self.book,
            message,
            all_rows.unwrap_or_default(),
            &counts,
            text.map(|n| self.text.get(..n).unwrap_or_default()),
            timestamp.map(|n| n.map(|n| self.timestamp.get(..n).unwrap_or_default())),
        )))
    }

    /// For an answer that the calls' promises rule out here, so that it cannot come again for ever: drops what is held, and hunts.
    fn forget(&mut self) {
        self.state = State {
            held: 0,
            hunting: 1,
        };
    }
}

/// Document 01: through the stream, 1 is told as 2, as the Rust does.
fn through_a_stream(refusal: Refusal) -> Refusal {
    match refusal {
        Refusal::Eof => Refusal::Malformed,
        other => other,
    }
}

impl fmt::Debug for Stream {
    fn fmt(&self, f: &mut fmt::Formatter<'_>) -> fmt::Result {
        f.debug_struct("Stream")
            .field("held", &self.held())
            .field("hunting", &(self.state.hunting != 0))
            .finish_non_exhaustive()
    }
}
