//! Cuts for the knife table: a path's lines as HP-GL, and such a file back as lines.

use crate::ffi;

/// Which knife table a reader is set to.
#[derive(Clone, Copy, Debug, PartialEq, Eq)]
pub enum Table {
    /// From -32767 to 32767.
    Old,
    /// From -8388608 to 8388607.
    New,
}

/// Why an export stopped, and what stands: whole commands, `IN;` among them.
#[derive(Clone, Copy, Debug, PartialEq, Eq)]
pub enum CutRefusal {
    /// A coordinate of the command is a NaN or, rounded, outside -8388608 to 8388607: refusal 30.
    BadNumber { bytes: usize, record: usize },
    /// The whole command has no room: refusal 31.
    NoRoom { bytes: usize, record: usize },
}

impl CutRefusal {
    pub fn number(self) -> u32 {
        match self {
            CutRefusal::BadNumber { .. } => 30,
            CutRefusal::NoRoom { .. } => 31,
        }
    }
}

impl std::fmt::Display for CutRefusal {
    fn fmt(&self, f: &mut std::fmt::Formatter) -> std::fmt::Result {
        let (why, bytes, record) = match *self {
            CutRefusal::BadNumber { bytes, record } => {
                ("a coordinate that is no number or out of range", bytes, record)
            }
            CutRefusal::NoRoom { bytes, record } => ("no room for the command", bytes, record),
        };
        write!(f, "refused {} at record {record}: {why}; {bytes} bytes stand", self.number())
    }
}

impl std::error::Error for CutRefusal {}

/// Why a reading stopped, and how many lines stand.
#[derive(Clone, Copy, Debug, PartialEq, Eq)]
pub enum ReadRefusal {
    /// The start of a number outside the table's range: refusal 32.
    TooFar { lines: usize, position: usize },
    /// The first byte that is not of the form, or the file's length if it stops short: refusal 33.
    Malformed { lines: usize, position: usize },
    /// The P of the whole PD whose line has no room: refusal 34.
    Full { lines: usize, position: usize },
}

impl ReadRefusal {
    pub fn number(self) -> u32 {
        match self {
            ReadRefusal::TooFar { .. } => 32,
            ReadRefusal::Malformed { .. } => 33,
            ReadRefusal::Full { .. } => 34,
        }
    }
}

impl std::fmt::Display for ReadRefusal {
    fn fmt(&self, f: &mut std::fmt::Formatter) -> std::fmt::Result {
        let (why, lines, position) = match *self {
            ReadRefusal::TooFar { lines, position } => ("a number outside the table's range", lines, position),
            ReadRefusal::Malformed { lines, position } => ("not of the form", lines, position),
            ReadRefusal::Full { lines, position } => ("no room for the line", lines, position),
        };
        write!(f, "refused {} at byte {position}: {why}; {lines} lines stand", self.number())
    }
}

impl std::error::Error for ReadRefusal {}

/// Writes the lines of one path of a list of line records as HP-GL, and returns the file's length. At a refusal the bytes
/// before the refused command stand, and no later byte has changed.
///
/// ```
/// use hinthevoun::{CutRefusal, ReadRefusal, Table, cut, read_cut};
///
/// let [x, y] = [2.5f32.to_bits(), (-0.5f32).to_bits()];
/// let list = [7, 0, 0, 0, x, y];
/// let mut bytes = [0; 20];
/// assert_eq!(cut(&list, 7, &mut bytes), Ok(15));
/// assert_eq!(&bytes[..15], b"IN;PU0,0;PD2,0;");
/// assert_eq!(cut(&list, 7, &mut bytes[..14]), Err(CutRefusal::NoRoom { bytes: 9, record: 0 }));
/// let mut lines = [0; 4];
/// assert_eq!(read_cut(&bytes[..15], Table::Old, &mut lines), Ok(1));
/// assert_eq!(lines, [0, 0, 2, 0]);
/// let long = b"IN;PU0,0;PD32768,0;";
/// assert_eq!(read_cut(long, Table::New, &mut lines), Ok(1));
/// assert_eq!(read_cut(long, Table::Old, &mut lines), Err(ReadRefusal::TooFar { lines: 0, position: 11 }));
/// ```
pub fn cut(list: &[u32], path: u32, bytes: &mut [u8]) -> Result<usize, CutRefusal> {
    let (number, out) = ffi::cut(list, path, bytes);
    let [bytes, record] = out.map(|word| word as usize);
    match number {
        0 => Ok(bytes),
        30 => Err(CutRefusal::BadNumber { bytes, record }),
        _ => Err(CutRefusal::NoRoom { bytes, record }),
    }
}

/// Reads the lines of such a file as a table does, four numbers each, and returns how many. At a refusal the lines read before stand, and no
/// later number has changed.
pub fn read_cut(file: &[u8], table: Table, lines: &mut [i32]) -> Result<usize, ReadRefusal> {
    let (number, out) = ffi::read_cut(file, table as u32, lines);
    let [lines, position] = out.map(|word| word as usize);
    match number {
        0 => Ok(lines),
        32 => Err(ReadRefusal::TooFar { lines, position }),
        33 => Err(ReadRefusal::Malformed { lines, position }),
        _ => Err(ReadRefusal::Full { lines, position }),
    }
}
