//! The input of a bench program, taken from the front; what is missing is
//! `None`, since "a record .. that the input cuts short" is a bad one.

/// "length (at most 2048, more is bad)", of an image and of what is lent.
pub const MOST_BYTES: usize = 2048;

#[derive(Clone, Copy, Debug)]
pub struct Input<'bytes> {
    rest: &'bytes [u8],
}

impl<'bytes> Input<'bytes> {
    pub fn new(rest: &'bytes [u8]) -> Input<'bytes> {
        Input { rest }
    }

    /// What is still to be taken.
    pub fn rest(&self) -> &'bytes [u8] {
        self.rest
    }

    pub fn bytes(&mut self, length: usize) -> Option<&'bytes [u8]> {
        let taken = self.rest.get(..length)?;
        self.rest = &self.rest[length..];
        Some(taken)
    }

    pub fn byte(&mut self) -> Option<u8> {
        Some(self.bytes(1)?[0])
    }

    /// "Numbers in the input are two bytes, high byte first".
    pub fn number(&mut self) -> Option<u16> {
        let two = self.bytes(2)?;
        Some(two[0] as u16 * 256 + two[1] as u16)
    }

    pub fn numbers(&mut self, count: usize) -> Option<Vec<u16>> {
        (0..count).map(|_| self.number()).collect()
    }

    /// "length (at most 2048, more is bad)"
    pub fn length(&mut self) -> Option<usize> {
        let length = self.number()? as usize;
        (length <= MOST_BYTES).then_some(length)
    }

    /// "block (1 byte), length (at most 2048, more is bad), so many bytes"
    pub fn block_and_image(&mut self) -> Option<(u8, Vec<u8>)> {
        let block = self.byte()?;
        let length = self.length()?;
        Some((block, self.bytes(length)?.to_vec()))
    }
}

/// Adds a number's two bytes, the high one first.
pub fn push_number(bytes: &mut Vec<u8>, number: usize) {
    assert!(number < 65536, "{number} has more than two bytes");
    bytes.extend([(number / 256) as u8, (number % 256) as u8]);
}

/// Adds what `Input::block_and_image` takes.
pub fn push_block_and_image(bytes: &mut Vec<u8>, block: u8, image: &[u8]) {
    bytes.push(block);
    push_number(bytes, image.len());
    bytes.extend_from_slice(image);
}
