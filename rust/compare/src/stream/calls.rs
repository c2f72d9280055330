//! A stream followed call by call: every answer beside the model's, and all that was told beside the whole reading.

use super::ffi;
use super::made::Cut;
use super::told::Told;
use crate::lent::Lent;
use crate::report::Hex;
use crate::Session;
use model::btsnoop::FILE_HEADER;
use model::rows::stream::taken as row;
use model::stream::{Answer, Stream};
use zalghimo_sys::Taken;

const TAKE: &str = "zalghimo_stream_take";
const END: &str = "zalghimo_stream_end";

/// How a stream comes.
#[derive(Clone, Copy)]
pub struct Way {
    pub cut: Cut,
    /// Whether the sender says that the stream has ended.
    pub ended: bool,
    /// Octets of whole records that are taken to have come behind the file header.
    pub before: u64,
}

/// Library and model, side by side in one stream.
struct Calls<'a> {
    stream: &'a [u8],
    lent: Lent<u8>,
    library: zalghimo_sys::Stream,
    model: Stream,
    told: Told,
    /// The bounds of the chunks so far.
    chunks: Vec<(usize, usize)>,
    /// How many answers of each call were as they must be.
    takes: u64,
    ends: u64,
    differs: bool,
}

/// Follows a stream to its last octet or to a refusal, and asks again after that; the answer is the state left.
pub fn follow(session: &mut Session, stream: &[u8], way: Way) -> zalghimo_sys::Stream {
    let mut calls = Calls {
        stream,
        lent: Lent::new(&mut session.prng, stream),
        library: ffi::fresh(),
        model: Stream::fresh(),
        told: Told::default(),
        chunks: Vec::new(),
        takes: 0,
        ends: 0,
        differs: false,
    };
    calls.chunks(session, way);
    let left = calls.library;
    if way.ended {
        calls.end(session);
    }
    if calls.model.is_over() {
        calls.again(session);
    }
    calls.finish(session, way);
    left
}

impl Calls<'_> {
    /// All chunks.
    fn chunks(&mut self, session: &mut Session, way: Way) {
        let mut chunk_end = 0;
        while !self.differs && !self.model.is_over() {
            let from = self.model.octets();
            let left = self.stream.len() - from;
            if left == 0 && session.prng.one_in(2) {
                return;
            }
            // What the last call left of its chunk, or another chunk from there on.
            if chunk_end <= from || session.prng.one_in(4) {
                chunk_end = from + way.cut.length(&mut session.prng).min(left);
            }
            if session.prng.one_in(8) {
                self.try_end(session);
            }
            self.take(session, from, chunk_end);
            if from < FILE_HEADER && self.model.octets() == FILE_HEADER {
                self.model.pass(way.before);
                self.library.octets += way.before;
            }
        }
    }

    /// A call with a chunk, from the octets taken on.
    fn take(&mut self, session: &mut Session, from: usize, to: usize) {
        self.chunks.push((from, to));
        let taken = ffi::take(self.library, &mut self.lent.lend()[from..to]);
        let expected = self.model.take(&self.stream[..to]);
        self.told.add(&taken, &self.stream[from..to]);
        self.library = taken.state;
        let octets = self.model.all_octets();
        let same = self.compare(session, TAKE, &taken, &expected, octets);
        self.takes += u64::from(same);
    }

    /// The call that says that the stream has ended.
    fn end(&mut self, session: &mut Session) {
        let taken = ffi::end(self.library);
        let expected = self.model.end(self.stream);
        self.told.add(&taken, &[]);
        self.library = taken.state;
        let octets = self.model.all_octets();
        let same = self.compare(session, END, &taken, &expected, octets);
        self.ends += u64::from(same);
    }

    /// What that call would answer now; the stream goes on.
    fn try_end(&mut self, session: &mut Session) {
        let mut model = self.model;
        let expected = model.end(self.stream);
        let taken = ffi::end(self.library);
        let same = self.compare(session, END, &taken, &expected, model.all_octets());
        self.ends += u64::from(same);
    }

    /// Both calls again, with chunks of any kind.
    fn again(&mut self, session: &mut Session) {
        let length = self.stream.len();
        for _ in 0..2 {
            let from = session.prng.below(length + 1);
            let to = from + session.prng.below(length - from + 1);
            self.take(session, from, to);
            self.end(session);
        }
        self.take(session, length, length);
    }

    /// Holds an answer, and how many octets were taken, to what they must be; true where they are.
    fn compare(
        &mut self,
        session: &mut Session,
        function: &'static str,
        taken: &Taken,
        expected: &Answer,
        octets: u64,
    ) -> bool {
        let library = (taken.row(), taken.state.octets);
        let expected = (row(expected), octets);
        if library == expected {
            return true;
        }
        self.differs = true;
        let inputs = || format!("stream {} chunks {:?}", Hex(self.stream), self.chunks);
        session.report.compare(function, inputs, library, expected);
        false
    }

    /// Counts the answers that were as they must be, and compares all that was told, and the octets lent.
    fn finish(self, session: &mut Session, way: Way) {
        session.report.agreed(TAKE, self.takes);
        session.report.agreed(END, self.ends);
        let inputs = || format!("stream {} chunks {:?}", Hex(self.stream), self.chunks);
        let lent = (self.lent.seen(), self.lent.wanted());
        session
            .report
            .compare("stream: octets lent", inputs, lent.0, lent.1);
        if way.before == 0 && !self.differs {
            let wanted = Told::wanted(self.stream, way.ended);
            session
                .report
                .compare("stream: all that is told", inputs, self.told, wanted);
        }
    }
}
