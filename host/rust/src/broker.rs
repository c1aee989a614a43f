//! The broker and its three calls.

use std::fmt;

use crate::answer::Answer;
use crate::codec::Sid;
use crate::ffi;
use crate::kept::{self, KeptError};
use crate::layout::control_word;
use crate::limits::{MAX_ANSWER, STATIONS};
use crate::memory::Memory;
use crate::pair::Pair;
use crate::refusal::Refusal;
use crate::sids;
use crate::view::{Handle, Station, Token};

/// What a part of a chunk did: [`Broker::feed_into`].
#[derive(Clone, Copy, Debug, PartialEq, Eq)]
#[non_exhaustive]
pub struct Fed<'b> {
    /// How many bytes of the chunk were used: all of them, or those up to the answer.
    pub used: usize,
    /// The answer's whole frame, in the buffer, if there is one.
    pub answer: Option<&'b [u8]>,
}

/// The broker, with the memory that it works on.
///
/// The memory is valid at all times: it begins as the start's or is tested by
/// [`Broker::from_bytes`], and nothing but the proved calls writes it.
#[derive(Clone, PartialEq, Eq)]
pub struct Broker {
    memory: Box<Memory>,
}

impl Broker {
    /// The start: token 1 is the primary token of all eight stations, and there are no handles.
    ///
    /// ```
    /// let broker = obriska::Broker::start();
    /// let token = broker.tokens().next().expect("token 1");
    /// assert_eq!((token.number, token.user, token.session), (1, 18, 999));
    /// assert_eq!(broker.handles().count(), 0);
    /// ```
    pub fn start() -> Self {
        let mut memory = Memory::zeroed();
        let refusal = ffi::start(&mut memory);
        assert_eq!(refusal, 0, "start takes any memory of the right sizes");
        Broker { memory }
    }

    /// Feeds a chunk of a station's stream until it is used up, and gives its answers in order:
    /// one for each request that ended in it, and one for the byte that broke the stream.
    ///
    /// How a stream is cut into chunks changes nothing: a request that is not whole yet is kept
    /// until its last byte. A broken stream ignores bytes until the station is reconnected.
    ///
    /// ```
    /// # let mut broker = obriska::Broker::start();
    /// assert!(broker.feed(0, &[0x02])?.is_empty()); // not whole yet
    /// let answers = broker.feed(0, &[0x01, 0x08, 0x02, 0x01, 0x08])?; // its rest, and another
    /// assert_eq!(answers.len(), 2);
    /// # Ok::<(), obriska::Refusal>(())
    /// ```
    ///
    /// # Errors
    ///
    /// [`Refusal::Station`] for a station above 7. Then nothing was fed.
    pub fn feed(&mut self, station: u32, data: &[u8]) -> Result<Vec<Answer>, Refusal> {
        let mut answers = Vec::new();
        let mut buffer = [0; MAX_ANSWER];
        let mut rest = data;
        // A refusal comes at the first call or never: valid memory stays valid.
        loop {
            let fed = self.feed_into(station, rest, &mut buffer)?;
            answers.extend(fed.answer.map(Answer::new));
            rest = &rest[fed.used..];
            if rest.is_empty() {
                return Ok(answers);
            }
        }
    }

    /// Feeds a chunk of a station's stream up to its first answer, without an allocation: the
    /// answer stands at the begin of the buffer. Feed the rest of the chunk until all of it is used;
    /// of one that is not empty, a byte is used at least.
    ///
    /// ```
    /// # let mut broker = obriska::Broker::start();
    /// let mut buffer = [0; obriska::MAX_ANSWER];
    /// let mut rest = &[0x02, 0x01, 0x08, 0x02, 0x01, 0x28, 0x02][..]; // two requests and a part
    /// let mut sent: Vec<u8> = Vec::new();
    /// while !rest.is_empty() {
    ///     let fed = broker.feed_into(0, rest, &mut buffer)?;
    ///     if let Some(answer) = fed.answer {
    ///         sent.extend(answer);
    ///     }
    ///     rest = &rest[fed.used..];
    /// }
    /// assert_eq!(sent, [0x02, 0x00, 0x01, 0x02, 0x00, 0x02]);
    /// # Ok::<(), obriska::Refusal>(())
    /// ```
    ///
    /// # Errors
    ///
    /// [`Refusal::Station`] for a station above 7, [`Refusal::Buffer`] for a buffer of less than
    /// [`MAX_ANSWER`] bytes. Then nothing was fed.
    pub fn feed_into<'b>(
        &mut self,
        station: u32,
        data: &[u8],
        buffer: &'b mut [u8],
    ) -> Result<Fed<'b>, Refusal> {
        let fed = ffi::feed(&mut self.memory, station, data, buffer);
        accepted(fed.refusal)?;
        let answer = (fed.answered > 0).then_some(&buffer[..fed.answered]);
        Ok(Fed { used: fed.used, answer })
    }

    /// Drops the station's part of a request and its break, and nothing else.
    ///
    /// ```
    /// # let mut broker = obriska::Broker::start();
    /// broker.feed(3, &[0x81, 0x10])?; // length 2,049 breaks the stream
    /// assert!(broker.stations()[3].broken);
    /// broker.reconnect(3)?;
    /// assert!(!broker.stations()[3].broken);
    /// # Ok::<(), obriska::Refusal>(())
    /// ```
    ///
    /// # Errors
    ///
    /// [`Refusal::Station`] for a station above 7.
    pub fn reconnect(&mut self, station: u32) -> Result<(), Refusal> {
        accepted(ffi::reconnect(&mut self.memory, station))
    }

    /// The live tokens, by slot.
    pub fn tokens(&self) -> impl Iterator<Item = Token> + '_ {
        Token::all(&self.memory)
    }

    /// The live token of this number.
    pub fn token(&self, number: u64) -> Option<Token> {
        self.tokens().find(|token| token.number == number)
    }

    /// The live handles, by slot.
    pub fn handles(&self) -> impl Iterator<Item = Handle> + '_ {
        Handle::all(&self.memory)
    }

    /// The station's live handle of this number.
    pub fn handle(&self, station: u32, number: u32) -> Option<Handle> {
        let slot = ffi::find(&self.memory.handles, station, number);
        self.memory.handles.get(slot).map(Handle::new)
    }

    /// The eight stations.
    pub fn stations(&self) -> [Station; STATIONS] {
        Station::all(&self.memory)
    }

    /// The linked pairs, by slot.
    ///
    /// ```
    /// # let mut broker = obriska::Broker::start();
    /// broker.feed(0, &[0x07, 0x03, 0x12, 0x07, 0x00, 0x00, 0x00, 0x00])?; // token 2 of session 7
    /// broker.feed(0, &[0x06, 0x0A, 0x01, 0x00, 0x00, 0x00, 0x00])?; // a copy of it, token 3
    /// let answers = broker.feed(0, &[0x04, 0x10, 0x01, 0x02, 0x07])?; // they are linked
    /// assert_eq!(answers[0].bytes(), [0x01, 0x00]);
    /// let pair = broker.pairs().next().expect("it was just made");
    /// assert_eq!((pair.session, pair.elevated, pair.filtered), (7, 2, 3));
    /// assert_eq!([2, 3, 4].map(|token| pair.partner(token)), [Some(3), Some(2), None]);
    /// # Ok::<(), obriska::Refusal>(())
    /// ```
    pub fn pairs(&self) -> impl Iterator<Item = Pair> + '_ {
        Pair::all(&self.memory)
    }

    /// The SID that has this number in the table; tokens, reports and requests have the number.
    ///
    /// ```
    /// use obriska::codec::{List, Request, Sid};
    ///
    /// # let mut broker = obriska::Broker::start();
    /// assert_eq!(broker.sid(18), Some(Sid::SYSTEM));
    /// assert_eq!(broker.sid(32), None);
    ///
    /// let user = "S-1-5-21-1000".parse()?;
    /// let [session, present, default] = [5, 0, 0];
    /// let groups = List::EMPTY;
    /// let create =
    ///     Request::CreateWithSids { user, session, integrity: 0, present, default, groups };
    /// broker.feed(0, &create.to_bytes()?)?;
    /// let token = broker.token(2).expect("it was just created");
    /// assert_eq!((token.user, broker.sid(token.user)), (32, Some(user)));
    /// # Ok::<(), Box<dyn std::error::Error>>(())
    /// ```
    pub fn sid(&self, number: u32) -> Option<Sid> {
        sids::sid(&self.memory, number)
    }

    /// The SIDs of the table with their numbers, upward: at most [`SIDS`](crate::SIDS).
    pub fn sids(&self) -> impl Iterator<Item = (u32, Sid)> + '_ {
        sids::all(&self.memory)
    }

    /// The number that the next token gets; the largest u64 is never given.
    pub fn next_token(&self) -> u64 {
        self.memory.control[control_word::NEXT_TOKEN]
    }

    /// The number that the next handle gets; the largest u32 is never given.
    pub fn next_handle(&self) -> u32 {
        self.memory.control[control_word::NEXT_HANDLE] as u32
    }

    /// All that the broker keeps, to be stored across a restart: [`KEPT_BYTES`] bytes, a head that
    /// names the layout and then what a C host has in `struct obriska_memory` (docs/MEMORY.md).
    ///
    /// ```
    /// use obriska::Broker;
    /// let mut broker = Broker::start();
    /// broker.feed(0, &[0x02, 0x01, 0x28])?;
    /// let kept = broker.to_bytes();
    ///
    /// let mut later = Broker::from_bytes(&kept)?;
    /// assert!(later.handle(0, 1).is_some());
    /// # Ok::<(), Box<dyn std::error::Error>>(())
    /// ```
    ///
    /// [`KEPT_BYTES`]: crate::KEPT_BYTES
    pub fn to_bytes(&self) -> Vec<u8> {
        kept::write(&self.memory)
    }

    /// The broker that these bytes were kept of.
    ///
    /// ```
    /// use obriska::{Broker, KeptError};
    /// let mut kept = Broker::start().to_bytes();
    /// kept[8] = 5; // as another edition kept it
    /// let error = Broker::from_bytes(&kept).expect_err("start anew");
    /// assert_eq!(error, KeptError::Layout(5));
    /// assert_eq!(error.to_string(), "kept memory of another edition: its layout is 5, not 6");
    /// ```
    ///
    /// # Errors
    ///
    /// Where they are something else, of another edition, cut short, or not valid memory by the
    /// proved test of every call.
    pub fn from_bytes(bytes: &[u8]) -> Result<Self, KeptError> {
        let mut broker = Broker { memory: kept::read(bytes)? };
        broker.feed(0, &[]).map_err(KeptError::Refused)?; // an empty chunk changes nothing
        Ok(broker)
    }
}

impl fmt::Debug for Broker {
    fn fmt(&self, f: &mut fmt::Formatter<'_>) -> fmt::Result {
        f.debug_struct("Broker")
            .field("tokens", &self.tokens().collect::<Vec<_>>())
            .field("handles", &self.handles().collect::<Vec<_>>())
            .field("stations", &self.stations())
            .field("pairs", &self.pairs().collect::<Vec<_>>())
            .field("sids", &self.sids().collect::<Vec<_>>())
            .finish()
    }
}

/// The result of a call that returned this number.
fn accepted(refusal: u32) -> Result<(), Refusal> {
    Refusal::from_number(refusal).map_or(Ok(()), Err)
}
