//! A lent part as bytes, with a margin on both sides, where nobody may write.

/// What a part's first element is aligned to.
const ALIGNMENT: usize = 8;

/// The part and its margins.
#[derive(Debug)]
pub struct Part {
    whole: Vec<u8>,
    begin: usize,
    size: usize,
    width: usize,
    filler: u8,
}

impl Part {
    /// A copy of the bytes, elements of this width, between margins of so many elements. Parts of
    /// bytes are aligned only as their margin lets them be.
    pub fn new(bytes: &[u8], width: usize, margin: usize, filler: u8) -> Self {
        let (margin, size) = (margin * width, bytes.len());
        let mut whole = vec![filler; ALIGNMENT + margin + size + margin];
        let begin = whole.as_ptr().align_offset(ALIGNMENT) + margin;
        whole[begin..begin + size].copy_from_slice(bytes);
        Part { whole, begin, size, width, filler }
    }

    /// How many elements it has.
    pub fn len(&self) -> usize {
        self.size / self.width
    }

    /// Every byte.
    pub fn bytes(&self) -> &[u8] {
        &self.whole[self.begin..self.begin + self.size]
    }

    /// Every byte, to be written.
    pub fn bytes_mut(&mut self) -> &mut [u8] {
        &mut self.whole[self.begin..self.begin + self.size]
    }

    /// Where the elements begin, for C to read.
    pub fn as_ptr<T>(&self) -> *const T {
        self.bytes().as_ptr().cast()
    }

    /// Where the elements begin, for C to read and write.
    pub fn as_mut_ptr<T>(&mut self) -> *mut T {
        self.bytes_mut().as_mut_ptr().cast()
    }

    /// Whether all that is not the part is as it was.
    pub fn margins_are_whole(&self) -> bool {
        let (first, rest) = self.whole.split_at(self.begin);
        let last = &rest[self.size..];
        first.iter().chain(last).all(|&byte| byte == self.filler)
    }
}
