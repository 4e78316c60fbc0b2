//! PNG: a picture of three bytes a pixel, as a file.
use crate::deflate::deflate;

/// The file's bytes. The file is small where a row repeats itself after `period` pixels.
pub fn png(width: usize, height: usize, rgb: &[u8], period: usize) -> Vec<u8> {
    let mut file = b"\x89PNG\r\n\x1a\n".to_vec();
    put_chunk(&mut file, b"IHDR", &header(width, height));
    let rows = unfiltered(3 * width, rgb);
    put_chunk(&mut file, b"IDAT", &zlib(&rows, &distances(width, period)));
    put_chunk(&mut file, b"IEND", &[]);
    file
}

/// How far back a picture repeats itself: in the pixel before, in the row above and beside that, and one and two periods before.
fn distances(width: usize, period: usize) -> [usize; 6] {
    let row = 3 * width + 1;
    [3, row - 3, row, row + 3, 3 * period, 6 * period]
}

fn header(width: usize, height: usize) -> Vec<u8> {
    let mut header = (width as u32).to_be_bytes().to_vec();
    header.extend((height as u32).to_be_bytes());
    // eight bits, red green blue, and the one kind there is of packing, of filters and of order
    header.extend([8, 2, 0, 0, 0]);
    header
}

/// Rows, each after a byte that says that no filter is on it.
fn unfiltered(row: usize, rgb: &[u8]) -> Vec<u8> {
    let rows = rgb.chunks_exact(row);
    rows.flat_map(|row| [&[0], row].concat()).collect()
}

fn put_chunk(file: &mut Vec<u8>, kind: &[u8; 4], data: &[u8]) {
    let summed = [kind, data].concat();
    file.extend((data.len() as u32).to_be_bytes());
    file.extend(&summed);
    file.extend(crc_32(&summed).to_be_bytes());
}

/// Packed bytes between zlib's two bytes and its sum.
fn zlib(bytes: &[u8], distances: &[usize]) -> Vec<u8> {
    let mut stream = vec![0x78, 0x01];
    stream.extend(deflate(bytes, distances));
    stream.extend(adler_32(bytes).to_be_bytes());
    stream
}

fn crc_32(bytes: &[u8]) -> u32 {
    !bytes.iter().fold(!0, |sum, &byte| {
        (0..8).fold(sum ^ u32::from(byte), |sum, _| match sum & 1 {
            1 => sum >> 1 ^ 0xedb8_8320,
            _ => sum >> 1,
        })
    })
}

fn adler_32(bytes: &[u8]) -> u32 {
    let (low, high) = bytes.iter().fold((1, 0), |(low, high), &byte| {
        let low = (low + u32::from(byte)) % 65_521;
        (low, (high + low) % 65_521)
    });
    high << 16 | low
}

#[cfg(test)]
mod tests {
    use super::*;
    use crate::deflate::tests::inflate;

    #[test]
    fn published_sums() {
        assert_eq!(crc_32(b"123456789"), 0xcbf4_3926);
        assert_eq!(adler_32(b"Wikipedia"), 0x11e6_0398);
    }

    #[test]
    fn a_picture_is_three_chunks() {
        let rgb = [1, 2, 3, 4, 5, 6, 7, 8, 9, 10, 11, 12];
        let file = png(2, 2, &rgb, 1);
        let (header, after) = file[8..].split_at(12 + 13);
        let (data, end) = after.split_at(after.len() - 12);
        assert_eq!(header[..8], *b"\0\0\0\x0dIHDR");
        assert_eq!(header[8..21], [0, 0, 0, 2, 0, 0, 0, 2, 8, 2, 0, 0, 0]);
        assert_eq!(end, b"\0\0\0\0IEND\xae\x42\x60\x82");
        assert_eq!(data[4..8], *b"IDAT");
        let stream = &data[8..data.len() - 4];
        let rows = [0, 1, 2, 3, 4, 5, 6, 0, 7, 8, 9, 10, 11, 12];
        assert_eq!(inflate(&stream[2..stream.len() - 4]), rows);
    }
}
