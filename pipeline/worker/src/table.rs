//! The file of a month's table: eight bytes that say what it is and in which version, the number of cells, a byte of mark for each hour, the totals, and
//! a sum over all of it. Numbers have eight bytes each, the lowest first. So a table that was damaged is told from a good one.
use crate::beside;
use crate::disk::{read_if_there, Disk};
use crate::failure::Failure;
use crate::memory::room;
use crate::saved::{add_sum, before_sum, SUM};
use pivotshade::Table;
use std::path::Path;

/// How the file begins; the last byte is the version.
const MAGIC: [u8; 8] = *b"totals 1";

/// Bytes of a number.
const NUMBER: usize = 8;

/// Bytes before the totals.
const FRONT: usize = MAGIC.len() + NUMBER + Table::HOURS;

/// The table in the file at `path`; none where there is no file.
pub fn read<D: Disk>(disk: &D, path: &Path) -> Result<Option<Table>, Failure> {
    let read = read_if_there(disk, path).map_err(Failure::disk("read", path))?;
    read.map(|bytes| from_bytes(&bytes, path)).transpose()
}

/// Replaces the file at `path` by one of this table, at one instant, and makes that last.
pub fn write<D: Disk>(disk: &D, path: &Path, table: &Table) -> Result<(), Failure> {
    let bytes = to_bytes(table, path)?;
    beside::replace(disk, path, &bytes).map_err(Failure::disk("write", path))
}

/// The bytes of a table's file, which will stand at `path`.
pub fn to_bytes(table: &Table, path: &Path) -> Result<Vec<u8>, Failure> {
    let totals = table.totals();
    let length = FRONT + totals.len() * NUMBER + SUM;
    let mut bytes = room(length).ok_or_else(|| Failure::no_memory(path, length))?;
    bytes.extend(MAGIC);
    bytes.extend((totals.len() as u64).to_le_bytes());
    bytes.extend(table.marks());
    bytes.extend(totals.iter().flat_map(|total| total.to_le_bytes()));
    add_sum(&mut bytes);
    Ok(bytes)
}

/// The table of such bytes, which stand at `path`; refused where one of them is not what was written.
pub fn from_bytes(bytes: &[u8], path: &Path) -> Result<Table, Failure> {
    let (marks, totals) = parts(bytes).ok_or_else(|| Failure::bad_table(path))?;
    let cells = totals.len() / NUMBER;
    let mut numbers = room(cells).ok_or_else(|| Failure::no_memory(path, totals.len()))?;
    numbers.extend(totals.chunks_exact(NUMBER).map(number));
    Ok(Table::from_parts(numbers, marks))
}

/// The marks, and the bytes of the totals.
fn parts(bytes: &[u8]) -> Option<([u8; Table::HOURS], &[u8])> {
    let rest = before_sum(bytes)?.strip_prefix(&MAGIC)?;
    if rest.len() < NUMBER + Table::HOURS {
        return None;
    }
    let (cells, rest) = rest.split_at(NUMBER);
    let (marks, totals) = rest.split_at(Table::HOURS);
    let is_whole = number(cells).checked_mul(NUMBER as u64) == Some(totals.len() as u64);
    is_whole.then_some((marks.try_into().ok()?, totals))
}

fn number(bytes: &[u8]) -> u64 {
    u64::from_le_bytes(bytes.try_into().expect("eight bytes"))
}

#[cfg(test)]
mod tests {
    use super::*;
    use crate::saved::tests::damaged;

    fn some_table() -> Table {
        let mut marks = [0; Table::HOURS];
        marks[0] = 1;
        marks[743] = 1;
        Table::from_parts(vec![0, 1, 0x0102_0304_0506_0708, u64::MAX], marks)
    }

    fn bytes_of(table: &Table) -> Vec<u8> {
        to_bytes(table, Path::new("t")).unwrap()
    }

    /// Bytes with the right sum after them.
    fn summed(bytes: &[u8]) -> Vec<u8> {
        let mut summed = bytes.to_vec();
        add_sum(&mut summed);
        summed
    }

    #[test]
    fn a_table_comes_back() {
        for table in [some_table(), Table::fresh(1), Table::fresh(1000)] {
            let read = from_bytes(&bytes_of(&table), Path::new("t")).unwrap();
            assert_eq!(read.totals(), table.totals());
            assert_eq!(read.marks(), table.marks());
        }
    }

    #[test]
    fn its_places_are_the_format() {
        let bytes = bytes_of(&some_table());
        assert_eq!(bytes[..16], *b"totals 1\x04\0\0\0\0\0\0\0");
        assert_eq!((bytes[16], bytes[17], bytes[759]), (1, 0, 1));
        assert_eq!(bytes[760..776], *b"\0\0\0\0\0\0\0\0\x01\0\0\0\0\0\0\0");
        assert_eq!(bytes[776..784], [8, 7, 6, 5, 4, 3, 2, 1]);
        assert_eq!(bytes[784..792], [255; 8]);
        assert_eq!(bytes.len(), 800);
    }

    #[test]
    fn one_changed_bit_is_seen() {
        let words = "t: the table is damaged, or this is none";
        for (what, bad) in damaged(&bytes_of(&some_table())) {
            let refused = from_bytes(&bad, Path::new("t")).expect_err(&what);
            assert_eq!(
                (refused.status(), refused.to_string().as_str()),
                (65, words)
            );
        }
    }

    #[test]
    fn a_right_sum_is_not_all() {
        let bytes = bytes_of(&some_table());
        let bytes = before_sum(&bytes).unwrap();
        assert!(from_bytes(&summed(bytes), Path::new("t")).is_ok());
        // a total too few or too many, a part of one, no totals, no cells, and nothing at all
        for length in [bytes.len() - 8, bytes.len() - 1, 760, 759, 16, 15, 8, 7, 0] {
            let short = summed(&bytes[..length]);
            assert!(from_bytes(&short, Path::new("t")).is_err(), "{length}");
        }
        let longer = summed(&[bytes, &[0; 8]].concat());
        assert!(from_bytes(&longer, Path::new("t")).is_err());
        // another version, and a number of cells whose bytes are too many for a number
        for (place, byte) in [(7, b'2'), (15, 0x20)] {
            let mut other = bytes.to_vec();
            other[place] = byte;
            assert!(from_bytes(&summed(&other), Path::new("t")).is_err());
        }
    }
}
