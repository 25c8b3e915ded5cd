//! A PNG file: 8-bit colour, stored without compression.

/// Most bytes of a stored block of deflate (RFC 1951).
const MOST_STORED: usize = 65_535;
const SIGNATURE: [u8; 8] = *b"\x89PNG\r\n\x1a\n";
/// 8 bits, colour, deflate, the one filter method, no interlace.
const KIND: [u8; 5] = [8, 2, 0, 0, 0];
/// A row is stored as it is.
const UNFILTERED: u8 = 0;

/// A file with `width` pixels per row.
pub fn bytes(width: u32, pixels: &[[u8; 3]]) -> Vec<u8> {
    let rows = pixels.chunks_exact(width as usize);
    let height = rows.len() as u32;
    let mut image = Vec::with_capacity(3 * pixels.len() + rows.len());
    for row in rows {
        image.push(UNFILTERED);
        image.extend_from_slice(row.as_flattened());
    }
    let mut file = SIGNATURE.to_vec();
    let head = [&width.to_be_bytes()[..], &height.to_be_bytes(), &KIND].concat();
    chunk(&mut file, b"IHDR", &head);
    chunk(&mut file, b"IDAT", &stored(&image));
    chunk(&mut file, b"IEND", &[]);
    file
}

/// Length, name, data and checksum of name and data.
fn chunk(file: &mut Vec<u8>, name: &[u8; 4], data: &[u8]) {
    file.extend((data.len() as u32).to_be_bytes());
    let start = file.len();
    file.extend(name);
    file.extend(data);
    let sum = crc32(&file[start..]);
    file.extend(sum.to_be_bytes());
}

/// A zlib stream (RFC 1950) of stored blocks.
fn stored(data: &[u8]) -> Vec<u8> {
    let mut stream = vec![0x78, 0x01];
    let mut blocks = data.chunks(MOST_STORED).peekable();
    while let Some(block) = blocks.next() {
        let length = block.len() as u16;
        stream.push(blocks.peek().is_none().into());
        stream.extend(length.to_le_bytes());
        stream.extend((!length).to_le_bytes());
        stream.extend(block);
    }
    stream.extend(adler32(data).to_be_bytes());
    stream
}

fn crc32(data: &[u8]) -> u32 {
    let step = |sum: u32, &byte: &u8| {
        let divide = |sum: u32, _| (sum >> 1) ^ (0xEDB8_8320 * (sum & 1));
        (0..8).fold(sum ^ u32::from(byte), divide)
    };
    !data.iter().fold(!0, step)
}

fn adler32(data: &[u8]) -> u32 {
    const MODULUS: u32 = 65_521;
    let step = |(a, b), &byte: &u8| {
        let a = (a + u32::from(byte)) % MODULUS;
        (a, (b + a) % MODULUS)
    };
    let (a, b) = data.iter().fold((1, 0), step);
    b << 16 | a
}

#[cfg(test)]
mod tests {
    use super::*;

    /// The check values that the checksums are published with.
    #[test]
    fn checksums() {
        assert_eq!(crc32(b"123456789"), 0xCBF4_3926);
        assert_eq!(crc32(b"IEND"), 0xAE42_6082);
        assert_eq!(adler32(b"Wikipedia"), 0x11E6_0398);
    }

    #[test]
    fn a_stream_is_blocks_of_at_most_65535_bytes() {
        let data = vec![7; MOST_STORED + 1];
        let stream = stored(&data);
        assert_eq!(stream[..7], [0x78, 0x01, 0, 0xFF, 0xFF, 0, 0]);
        assert_eq!(stream[7 + MOST_STORED..][..6], [1, 1, 0, 0xFE, 0xFF, 7]);
        assert_eq!(stream.len(), 2 + 5 + MOST_STORED + 5 + 1 + 4);
    }

    #[test]
    fn one_pixel() {
        let file = bytes(1, &[[1, 2, 3]]);
        let head = [0, 0, 0, 13, b'I', b'H', b'D', b'R', 0, 0, 0, 1, 0, 0, 0, 1];
        assert_eq!(file[..8], SIGNATURE);
        assert_eq!(file[8..24], head);
        assert_eq!(file[24..29], KIND);
        assert_eq!(file[41..52], [0x78, 0x01, 1, 4, 0, 0xFB, 0xFF, 0, 1, 2, 3]);
        assert_eq!(file[file.len() - 4..], 0xAE42_6082_u32.to_be_bytes());
    }
}
