// Rain totals: a month's table, to which a frame is added for each hour once.
use crate::error::{accepted, Result};
use crate::ffi::{self, COUNTED_ALREADY, HOURS};
use std::fmt;

/// A month's rain: a total for each cell, and a mark for each hour that is in the totals.
///
/// A cell's rain is its pixel's four bytes as one number, the first one highest, in hundredths of a millimetre.
///
/// A month may come in any order and with any repeats. From a fresh table on each total is the sum, over the hours that are marked, of the cell in
/// the first frame that was accepted for the hour; and an hour is marked exactly if a frame was accepted for it. That is proved.
///
/// ```
/// use pivotshade::{encode_to_vec, Counted, Table};
///
/// // two cells: 2.50 mm of rain, and 655.36 mm
/// let message = encode_to_vec([0, 0, 0, 250, 0, 1, 0, 0], 2, 1)?;
/// let mut table = Table::fresh(2);
/// let mut frame = [0; 8];
///
/// assert_eq!(table.count(&message, 17, &mut frame)?, Counted::Now { used: message.len() });
/// assert!(table.is_marked(17));
/// assert_eq!(table.totals(), [250, 65536]);
///
/// // what comes again changes nothing
/// assert_eq!(table.count(&message, 17, &mut frame)?, Counted::Already);
/// assert_eq!(table.totals(), [250, 65536]);
/// # Ok::<(), pivotshade::Error>(())
/// ```
#[derive(Clone, PartialEq, Eq)]
pub struct Table {
    totals: Vec<u64>,
    marks: [u8; HOURS],
}

impl Table {
    /// How many hours a month has, from 0 on.
    pub const HOURS: usize = HOURS;

    /// A table of so many cells, with nothing counted.
    pub fn fresh(cells: usize) -> Self {
        Self::from_parts(vec![0; cells], [0; HOURS])
    }

    /// The table of parts that were kept. Whoever keeps a table writes both as one: rain without its mark would be counted again, and a mark without
    /// its rain would keep it out for good.
    ///
    /// ```
    /// use pivotshade::Table;
    ///
    /// let table = Table::fresh(6);
    /// assert_eq!(Table::from_parts(table.totals().to_vec(), *table.marks()), table);
    /// ```
    pub fn from_parts(totals: Vec<u64>, marks: [u8; HOURS]) -> Self {
        Self { totals, marks }
    }

    /// The totals, in the order of the frame's pixels.
    pub fn totals(&self) -> &[u64] {
        &self.totals
    }

    /// The marks: a byte for each hour, which is marked where the byte is not 0. A count writes 1.
    pub fn marks(&self) -> &[u8; HOURS] {
        &self.marks
    }

    /// Whether an hour is counted; no hour above 743 is.
    pub fn is_marked(&self, hour: u64) -> bool {
        self.marks
            .get(hour as usize)
            .map_or(false, |&mark| mark != 0)
    }

    /// Adds an hour's frame to the totals and marks the hour, unless it is marked.
    ///
    /// The message is decoded to `frame`, wholly, before a total is touched. `frame` needs four bytes for each of its pixels; of a longer one the end
    /// stays as it was.
    ///
    /// Whatever is answered but [`Counted::Now`], the table is as it was, so an hour whose frame is refused may come again. Answers, in this order,
    /// and what `frame` holds then:
    ///
    /// - [`Error::InvalidHour`](crate::Error::InvalidHour) for an hour above 743, then [`Counted::Already`]: what it held. The message is not looked at.
    /// - As [`decode_header`](crate::decode_header) refuses, then as [`Decoder::decode_to_buf`](crate::Decoder::decode_to_buf) to four channels: what
    ///   that leaves.
    /// - [`Error::InvalidChannels`](crate::Error::InvalidChannels) with 3 for a message of three channels, which is no frame;
    ///   [`Error::InvalidCellCount`](crate::Error::InvalidCellCount); [`Error::TotalTooLarge`](crate::Error::TotalTooLarge), which does not occur from
    ///   a fresh table on; [`Counted::Now`]: in each case every pixel.
    ///
    /// ```
    /// use pivotshade::{encode_to_vec, Counted, Error, Table};
    ///
    /// let frame = encode_to_vec([0, 0, 0, 250], 1, 1)?;
    /// let picture = encode_to_vec([10, 20, 30], 1, 1)?;
    /// let mut table = Table::fresh(1);
    /// let mut buffer = [0; 4];
    ///
    /// assert_eq!(table.count(&frame, 744, &mut buffer), Err(Error::InvalidHour { hour: 744 }));
    /// assert_eq!(table.count(&picture, 17, &mut buffer), Err(Error::InvalidChannels { channels: 3 }));
    /// assert_eq!(buffer, [10, 20, 30, 255]);
    /// assert_eq!(table, Table::fresh(1));
    /// assert_eq!(table.count(&frame, 17, &mut buffer), Ok(Counted::Now { used: frame.len() }));
    /// # Ok::<(), pivotshade::Error>(())
    /// ```
    pub fn count(
        &mut self,
        message: impl AsRef<[u8]>,
        hour: u64,
        frame: &mut [u8],
    ) -> Result<Counted> {
        let (totals, marks) = (&mut self.totals, &mut self.marks);
        let answer = ffi::count(message.as_ref(), hour, frame, totals, marks);
        if let (COUNTED_ALREADY, _) = answer {
            return Ok(Counted::Already);
        }
        let [used, ..] = accepted(answer)?;
        Ok(Counted::Now {
            used: used as usize,
        })
    }
}

impl fmt::Debug for Table {
    fn fmt(&self, f: &mut fmt::Formatter) -> fmt::Result {
        let marked = self.marks.iter().filter(|&&mark| mark != 0);
        f.debug_struct("Table")
            .field("cells", &self.totals.len())
            .field("hours_marked", &marked.count())
            .finish_non_exhaustive()
    }
}

/// Whether a frame was counted.
#[derive(Copy, Clone, Debug, PartialEq, Eq)]
#[must_use]
pub enum Counted {
    /// It was: each total has its cell added, and its hour is marked.
    Now {
        /// Bytes of the message, to the end of its marker; see [`rest`](crate::rest).
        used: usize,
    },
    /// Its hour had been counted before, and nothing has changed.
    Already,
}
