//! Images that the tests type byte by byte, by the words of M-102 and not by
//! the model's writer.

/// An entry of five bytes: kind, offset and length, the latter two high byte
/// first.
pub fn entry(kind: u8, offset: u16, length: u16) -> [u8; 5] {
    let [offset_high, offset_low] = offset.to_be_bytes();
    let [length_high, length_low] = length.to_be_bytes();
    [kind, offset_high, offset_low, length_high, length_low]
}

/// "First come 15 entries": all of them empty but those given by block.
pub fn entries(filled: &[(usize, [u8; 5])]) -> Vec<u8> {
    let mut bytes = vec![0; 75];
    for (block, entry) in filled {
        bytes[block * 5..block * 5 + 5].copy_from_slice(entry);
    }
    bytes
}

/// The bytes of numbers, "high byte first".
pub fn body(numbers: &[u16]) -> Vec<u8> {
    numbers.iter().flat_map(|one| one.to_be_bytes()).collect()
}

/// An image in which one block alone is filled.
pub fn image_with(block: usize, numbers: &[u16]) -> Vec<u8> {
    let length = 2 * numbers.len() as u16;
    [entries(&[(block, entry(1, 75, length))]), body(numbers)].concat()
}

/// Bodies whose numbers tell block and place apart.
pub fn numbers(block: u16, count: u16) -> Vec<u16> {
    (0..count).map(|place| block * 1000 + place * 7).collect()
}

/// Blocks 0, 3 and 14: 24, 25 and 24 numbers.  75 + 48 = 123, 123 + 50 = 173,
/// 173 + 48 = 221.
pub fn three_blocks() -> Vec<u8> {
    [
        entries(&[
            (0, entry(1, 75, 48)),
            (3, entry(1, 123, 50)),
            (14, entry(1, 173, 48)),
        ]),
        body(&numbers(0, 24)),
        body(&numbers(3, 25)),
        body(&numbers(14, 24)),
    ]
    .concat()
}
