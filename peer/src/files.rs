//! What both kinds of file share: the marks, the header, the place of a refusal and little-endian numbers.

/// The programs take at most this many bytes.
pub const MOST_BYTES: usize = 65_535;

/// The header, `MN` and n, is this long.
pub const HEADER: usize = 3;

/// n, or the number that refuses the header, whose mark stands at 0.
pub fn read_header(file: &[u8]) -> Result<usize, u32> {
    if file.is_empty() {
        return Err(9);
    }
    if file.len() == 1 {
        return Err(11);
    }
    if &file[0..2] != b"MN" {
        return Err(9);
    }
    if file.len() < HEADER {
        return Err(24);
    }
    let n = file[2] as usize;
    if n < 1 || n > 32 {
        return Err(8);
    }
    Ok(n)
}

/// The place answered beside the number that refuses the record whose mark stands at `mark`. 24, document 02's
/// number for a cut body, names the first missing byte, which is the file's length; any other the mark.
pub fn refusal_place(file: &[u8], mark: usize, number: u32) -> usize {
    if number == 24 {
        file.len()
    } else {
        mark
    }
}

/// The little-endian number in four bytes.
pub fn four(bytes: &[u8]) -> u32 {
    u32::from_le_bytes([bytes[0], bytes[1], bytes[2], bytes[3]])
}
