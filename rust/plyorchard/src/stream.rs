//! Records that come in fragments: each is answered as soon as it is whole.

use crate::calls::Answer;
use crate::Refusal;
use std::io::{self, ErrorKind, Write};
use std::ops::Range;

/// Answers records that come in fragments, and keeps at most 16 bytes between calls: those since the last whole record.
///
/// However an input is cut, some fragments empty, the bytes that [`feed`](Stream::feed) and a last [`end`](Stream::end)
/// write are, joined, the answers to the whole input, given room at every call: that is proved of every cutting, and of
/// the C calls that these make. A fragment that is refused is not taken, and may be fed again with more room.
///
/// ```
/// use plyorchard::{Refusal, Stream};
///
/// // The root of 17, at 64 bits, and a record that is cut.
/// let input = [3, 0, 0, 0, 0, 0, 0, 0, 17, 0, 0, 0, 0, 0, 0, 0, 0, 3];
/// let mut stream = Stream::new();
/// let mut answers = [0; 9];
/// assert_eq!(stream.feed(&input[..5], &mut answers), Ok(0));
/// assert_eq!(stream.feed(&input[5..], &mut []), Err(Refusal::NoRoom));
/// assert_eq!(stream.feed(&input[5..], &mut answers), Ok(9));
/// assert_eq!(answers, [0, 0, 0, 0, 0, 0, 0, 0, 4]);
/// assert_eq!(stream.end(&mut answers), Ok(9));
/// assert_eq!(answers, [0xD0, 0, 0, 0, 0, 0, 0, 0, 0]);
/// assert_eq!(stream, Stream::new());
/// ```
#[derive(Clone, Debug, Default, PartialEq, Eq)]
pub struct Stream {
    /// 16 bytes, and how many of them count.
    state: [u8; 17],
}

impl Stream {
    /// The stream at the start of an input.
    pub const fn new() -> Stream {
        Stream { state: [0; 17] }
    }

    /// The stream that [`to_bytes`](Stream::to_bytes) gave the bytes of. Any 17 bytes are a stream: the last is the count,
    /// and of the first 16 those behind it count for nothing. Where it is above 16, which no call makes it, every call is
    /// refused with 13.
    pub const fn from_bytes(state: [u8; 17]) -> Stream {
        Stream { state }
    }

    /// The stream as bytes, to be kept elsewhere between calls: 16, and how many of them count.
    pub const fn to_bytes(&self) -> [u8; 17] {
        self.state
    }

    /// Takes a fragment of any length: writes the answers to the records that it completes, 9 bytes for each, from the
    /// front of the output, and gives how many bytes that is. The output's other bytes stay.
    ///
    /// Refused with 10 where the output lacks room for all of them, and then nothing changes and nothing is taken.
    pub fn feed(&mut self, fragment: &[u8], output: &mut [u8]) -> Result<usize, Refusal> {
        self.feed_answer(fragment, output).result()
    }

    /// The end of the input: writes the answer with refusal 13 if bytes are left over, and gives 9, or else 0. The stream
    /// is then as new.
    ///
    /// Refused with 10 where bytes are left over and the output lacks room for 9, and then nothing changes.
    pub fn end(&mut self, output: &mut [u8]) -> Result<usize, Refusal> {
        self.end_answer(output).result()
    }

    /// The C function of a feed itself, for the tests.
    #[doc(hidden)]
    pub fn feed_answer(&mut self, fragment: &[u8], output: &mut [u8]) -> Answer<usize> {
        extern "C" {
            fn ply_stream_feed(
                state: *mut [u8; 17],
                fragment: *const u8,
                length: usize,
                output: *mut u8,
                room: usize,
                written: *mut usize,
            ) -> u8;
        }
        let (from, length) = (fragment.as_ptr(), fragment.len());
        let (to, room) = (output.as_mut_ptr(), output.len());
        let mut value = usize::MAX;
        // SAFETY: the archive has the function with these types; state, fragment, output and count do not overlap and are
        // ours for the call, and the function is proved to be safe on all of them. It sets the count on every call.
        let refusal =
            unsafe { ply_stream_feed(&mut self.state, from, length, to, room, &mut value) };
        Answer { refusal, value }
    }

    /// The C function of an end itself, for the tests.
    #[doc(hidden)]
    pub fn end_answer(&mut self, output: &mut [u8]) -> Answer<usize> {
        extern "C" {
            fn ply_stream_end(
                state: *mut [u8; 17],
                output: *mut u8,
                room: usize,
                written: *mut usize,
            ) -> u8;
        }
        let (to, room) = (output.as_mut_ptr(), output.len());
        let mut value = usize::MAX;
        // SAFETY: as for a feed.
        let refusal = unsafe { ply_stream_end(&mut self.state, to, room, &mut value) };
        Answer { refusal, value }
    }
}

/// How many records a write completes at most, and so how many bytes it takes: with the 16 that may be kept, no more are
/// completed.
const RECORDS: usize = 512;
const TAKEN: usize = 17 * RECORDS;
const ROOM: usize = 9 * RECORDS;

/// A writer that answers the records written to it into an inner writer, however the writes cut them.
///
/// An answer goes to the inner writer with the write that completes its record. That write has taken its bytes and does
/// not fail where the inner writer does: the answers wait, up to 4,608 bytes of them, and the next call passes them on
/// first, and fails if it cannot. Call [`flush`](Write::flush) or [`end`](AnswerWriter::end) to learn of a failure; answers
/// that still wait when the writer is dropped or taken apart are lost. A short tail is answered by `end` alone.
///
/// ```
/// use plyorchard::AnswerWriter;
/// use std::io::Write;
///
/// let mut writer = AnswerWriter::new(Vec::new());
/// for fragment in [&[3, 0, 0, 0, 0, 0, 0][..], &[0, 17, 0, 0, 0], &[], &[0, 0, 0, 0, 0, 3]] {
///     writer.write_all(fragment)?;
/// }
/// assert_eq!(writer.get_ref(), &[0, 0, 0, 0, 0, 0, 0, 0, 4]);
/// writer.end()?;
/// assert_eq!(writer.into_inner()[9..], [0xD0, 0, 0, 0, 0, 0, 0, 0, 0]);
/// # Ok::<(), std::io::Error>(())
/// ```
#[derive(Debug)]
pub struct AnswerWriter<W> {
    inner: W,
    stream: Stream,
    output: Box<[u8]>,
    /// Where the answers are that the inner writer has not taken yet.
    waiting: Range<usize>,
}

impl<W: Write> AnswerWriter<W> {
    /// A writer at the start of an input.
    pub fn new(inner: W) -> AnswerWriter<W> {
        AnswerWriter {
            inner,
            stream: Stream::new(),
            output: vec![0; ROOM].into(),
            waiting: 0..0,
        }
    }

    /// The end of the input: a short tail is answered, and the inner writer flushed. The writer is then as new. Where the
    /// inner writer fails, make the call again, and write nothing until it succeeds.
    pub fn end(&mut self) -> io::Result<()> {
        self.pass_on()?;
        let size = self.stream.end(&mut self.output);
        self.waiting = 0..size.map_err(io::Error::other)?;
        self.flush()
    }

    /// The inner writer.
    pub fn get_ref(&self) -> &W {
        &self.inner
    }

    /// The inner writer. Answers that still wait are lost, and a short tail is not answered: call
    /// [`end`](AnswerWriter::end) first.
    pub fn into_inner(self) -> W {
        self.inner
    }

    /// Passes on the answers that wait.
    fn pass_on(&mut self) -> io::Result<()> {
        while !self.waiting.is_empty() {
            match self.inner.write(&self.output[self.waiting.clone()]) {
                Ok(0) => return Err(ErrorKind::WriteZero.into()),
                Ok(size) => self.waiting.start += size,
                Err(why) if why.kind() == ErrorKind::Interrupted => {}
                Err(why) => return Err(why),
            }
        }
        Ok(())
    }
}

impl<W: Write> Write for AnswerWriter<W> {
    fn write(&mut self, bytes: &[u8]) -> io::Result<usize> {
        self.pass_on()?;
        let fragment = &bytes[..bytes.len().min(TAKEN)];
        let size = self.stream.feed(fragment, &mut self.output);
        self.waiting = 0..size.map_err(io::Error::other)?;
        // The fragment is taken, so a failure is not this call's: the answers wait, and the next call tries again.
        let _ = self.pass_on();
        Ok(fragment.len())
    }

    fn flush(&mut self) -> io::Result<()> {
        self.pass_on()?;
        self.inner.flush()
    }
}
