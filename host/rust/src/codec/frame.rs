//! Frames: a body with its length before it.

use super::error::ReadError;
use super::reader::Reader;
use crate::limits::MAX_BODY;

/// A frame and the bytes after it.
type Split<'a> = (&'a [u8], &'a [u8]);

/// The first frame of a stream and the bytes after it; `None` where more bytes are needed.
///
/// It is for requests and answers alike: what came from the broker is kept until a frame is whole.
///
/// ```
/// use obriska::codec::first_frame;
///
/// let stream = [0x02, 0x00, 0x01, 0x01, 0x00, 0x05]; // two answers and a byte of a third
/// let (answer, rest) = first_frame(&stream)?.expect("it is whole");
/// assert_eq!(answer, [0x02, 0x00, 0x01]);
/// let (answer, rest) = first_frame(rest)?.expect("it is whole");
/// assert_eq!(answer, [0x01, 0x00]);
/// assert_eq!(first_frame(rest)?, None);
/// # Ok::<(), obriska::codec::ReadError>(())
/// ```
///
/// # Errors
///
/// Where the first bytes are no length from 1 to [`MAX_BODY`] in its shortest form.
pub fn first_frame(stream: &[u8]) -> Result<Option<Split<'_>>, ReadError> {
    if let [] | [0x80..=0xFF] = stream {
        return Ok(None); // a length's first byte may be any but 0
    }
    let mut reader = Reader::new(stream);
    let end = length(&mut reader, MAX_BODY)? + reader.place();
    Ok(stream.split_at_checked(end))
}

/// A reader of the body of one whole frame.
pub(super) fn body(frame: &[u8], longest: usize) -> Result<Reader<'_>, ReadError> {
    let mut reader = Reader::new(frame);
    let end = length(&mut reader, longest)? + reader.place();
    if frame.len() < end {
        return Err(ReadError { place: frame.len(), expected: "the rest of the frame" });
    }
    if frame.len() > end {
        return Err(ReadError { place: end, expected: "the end of the frame" });
    }
    Ok(reader)
}

/// The length of a body.
fn length(reader: &mut Reader, longest: usize) -> Result<usize, ReadError> {
    reader.value("the length of a body", |length| {
        usize::try_from(length).ok().filter(|length| (1..=longest).contains(length))
    })
}

#[cfg(test)]
mod tests {
    use super::*;

    #[test]
    fn a_frame_is_cut_off_when_it_is_whole() {
        let stream = [2, 1, 8, 1, 9, 3, 1];
        assert_eq!(first_frame(&stream), Ok(Some((&stream[..3], &stream[3..]))));
        assert_eq!(first_frame(&stream[3..]), Ok(Some((&stream[3..5], &stream[5..]))));
        assert_eq!(first_frame(&stream[5..]), Ok(None));
        let longest = [&[0x80, 0x10][..], &[7; MAX_BODY]].concat();
        assert_eq!(first_frame(&longest), Ok(Some((&longest[..], &[][..]))));
        for part in [&[][..], &[0x80], &[0xFF], &[0x80, 1], &longest[..longest.len() - 1]] {
            assert_eq!(first_frame(part), Ok(None), "{part:?}");
        }
    }

    #[test]
    fn what_breaks_a_stream_is_no_length() {
        for stream in [&[0][..], &[0x80, 0], &[0x81, 0x10], &[0x80, 0x80], &[0x80, 0x80, 1]] {
            assert_eq!(first_frame(stream).map_err(|error| error.place), Err(0), "{stream:?}");
        }
    }

    #[test]
    fn a_whole_frame_has_its_body() {
        for count in [1, 127, 128, 2048] {
            let mut frame = Vec::new();
            crate::number::write(count as u64, &mut frame);
            frame.resize(frame.len() + count, 5);
            let reader = body(&frame, MAX_BODY).expect("it is whole");
            assert_eq!(reader.rest(), vec![5; count]);
        }
        let place = |frame| body(frame, MAX_BODY).map(|_| ()).unwrap_err().place;
        assert_eq!([place(&[]), place(&[2, 1]), place(&[2, 1, 8, 0])], [0, 2, 3]);
        assert_eq!(place(&[0x82, 0, 1, 8]), 0);
    }
}
