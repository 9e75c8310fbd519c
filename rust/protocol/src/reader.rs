//! A reader that keeps its progress record and its counts itself.

use core::iter::FusedIterator;

use crate::raw::{self, Progress};
use crate::{Due, IDS, Message, Read, Refusal};

/// A reader of one connection: its progress record, the vectors of each id, and the number of vectors that it is configured for.
///
/// No call of it is refused: [`new`](Reader::new) asks the library whether it takes the number of vectors, and what a call leaves
/// is always taken by the next.
#[derive(Clone, Debug, PartialEq, Eq, Hash)]
pub struct Reader {
    progress: Progress,
    counts: [u8; IDS],
    vectors: u64,
    own: Option<u8>,
}

impl Reader {
    /// A reader at the start of a connection, configured for so many vectors.
    ///
    /// # Errors
    /// [`Refusal::BadVectors`] where the number is not 1 to [`MAX_VECTORS`](crate::MAX_VECTORS).
    pub fn new(vectors: u64) -> Result<Reader, Refusal> {
        let mut reader = Reader { progress: Progress::default(), counts: [0; IDS], vectors, own: None };
        // Without input a call changes nothing, and says whether the number is taken.
        raw::read(reader.progress, &mut reader.counts, vectors, &[]).result().map(|_| reader)
    }

    /// Takes bytes through the end of the first whole record, those that are held counted, and answers its message. Without a
    /// whole record it holds them all and answers [`Message::More`].
    pub fn read(&mut self, input: &[u8]) -> Read {
        let answer = raw::read(self.progress, &mut self.counts, self.vectors, input);
        debug_assert_eq!(answer.number, 0, "a reader's own progress record is refused");
        // The library takes every progress record that it gave; the other answer only spares a panic that can't happen.
        let read = answer.result().unwrap_or(Read { message: Message::More, taken: input.len() });
        self.progress = answer.progress;
        if let Message::Id(id) = read.message {
            self.own = Some(id);
        }
        read
    }

    /// The messages of a piece of the stream, up to its end, without [`Message::More`]. What is behind the last whole record is
    /// held for the next piece.
    ///
    /// A record is read when its message is asked for. Who stops before the end has to keep [`Messages::rest`], the bytes that are
    /// left, and hand them in first next time: where they are lost, the next piece begins inside a record. A loop that may stop
    /// goes over `messages.by_ref()`, so that `messages.rest()` is there behind it.
    pub fn messages<'reader, 'piece>(&'reader mut self, piece: &'piece [u8]) -> Messages<'reader, 'piece> {
        Messages { reader: self, rest: piece }
    }

    /// The client's own id: nothing before it has come, and nothing where the reader was closed before that. It stays when the
    /// reader is closed later.
    ///
    /// It is what [`Message::Id`] has said. Once it is closed, the progress record alone does not tell id 0 from none.
    #[must_use]
    pub fn own_id(&self) -> Option<u8> {
        self.own
    }

    /// How many vectors the id has; 0 for one above 63 too, which nobody has.
    #[must_use]
    pub fn count(&self, id: u8) -> u8 {
        self.counts.get(usize::from(id)).copied().unwrap_or_default()
    }

    /// The vectors of every id.
    #[must_use]
    pub fn counts(&self) -> &[u8; IDS] {
        &self.counts
    }

    /// How many vectors the reader is configured for.
    #[must_use]
    pub fn vectors(&self) -> u64 {
        self.vectors
    }

    /// What the reader waits for.
    #[must_use]
    pub fn due(&self) -> Due {
        Due::from_number(self.progress.due)
    }

    /// Whether a record was not in place.
    #[must_use]
    pub fn is_closed(&self) -> bool {
        self.due() == Due::Closed
    }

    /// The progress record, as the library has left it.
    #[must_use]
    pub fn progress(&self) -> &Progress {
        &self.progress
    }
}

/// The messages of a piece of the stream. See [`Reader::messages`].
#[must_use = "a record is read when its message is asked for"]
#[derive(Debug)]
pub struct Messages<'reader, 'piece> {
    reader: &'reader mut Reader,
    rest: &'piece [u8],
}

impl<'piece> Messages<'_, 'piece> {
    /// The bytes of the piece that are not read yet.
    #[must_use]
    pub fn rest(&self) -> &'piece [u8] {
        self.rest
    }
}

impl Iterator for Messages<'_, '_> {
    type Item = Message;

    fn next(&mut self) -> Option<Message> {
        let Read { message, taken } = self.reader.read(self.rest);
        // The library never takes more bytes than it was lent; `get` only spares a panic that can't happen.
        self.rest = self.rest.get(taken..).unwrap_or_default();
        (message != Message::More).then_some(message)
    }
}

impl FusedIterator for Messages<'_, '_> {}
