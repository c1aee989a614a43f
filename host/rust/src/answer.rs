//! An answer to a request, or to the byte that broke a stream.

use crate::codec::{ReadError, Reply, Request};
use crate::number;
use crate::refusal::Refusal;

/// One answer, as it is to be sent to the station.
///
/// ```
/// use obriska::{Broker, Refusal};
///
/// let mut broker = Broker::start();
/// // Mask 0x10 names no right.
/// let answers = broker.feed(0, &[0x02, 0x01, 0x10])?;
/// assert_eq!(answers[0].bytes(), [0x01, 0x05]);
/// assert_eq!(answers[0].refusal(), Some(Refusal::Field));
/// # Ok::<(), Refusal>(())
/// ```
#[derive(Clone, Debug, PartialEq, Eq)]
pub struct Answer {
    bytes: Vec<u8>,
}

impl Answer {
    pub(crate) fn new(bytes: &[u8]) -> Self {
        Answer { bytes: bytes.to_vec() }
    }

    /// The whole frame: length, status, fields.
    pub fn bytes(&self) -> &[u8] {
        &self.bytes
    }

    /// Status and fields, without the length.
    fn body(&self) -> &[u8] {
        number::read(&self.bytes).map_or(&[], |(_, body)| body)
    }

    /// `None` for a success; the refusal 1 to 10 or 14 otherwise.
    pub fn refusal(&self) -> Option<Refusal> {
        self.body().first().and_then(|&status| Refusal::from_number(status.into()))
    }

    /// What it says, as the answer to this request.
    ///
    /// # Errors
    ///
    /// Where it is the answer to another one.
    pub fn reply(&self, request: &Request) -> Result<Reply<'_>, ReadError> {
        Reply::read(request, &self.bytes)
    }

    /// The bytes after the status: a success's fields, or the size that refusal 9 gives.
    /// [`Answer::reply`] reads them.
    pub fn fields(&self) -> &[u8] {
        self.body().get(1..).unwrap_or_default()
    }
}
