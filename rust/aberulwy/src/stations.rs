//! Station files.

use crate::judging::counted;
use crate::{raw, Refusal};

/// Reads a station file, as `docs/FORMATS.md` draws it: its tables go to one area, its plan to
/// the other, zeros behind. Answers the plan's length.
///
/// A file is read, in areas that hold it, exactly when it is the one that [`write_station`] writes
/// from some tables and some plan, and these are what is read.
///
/// # Errors
///
/// Refusals 51 to 54 for the file; 55 for a tables area below 2,305 bytes, or a plan area
/// shorter than the plan; then 1 to 8 and 11 to 14. The areas then keep their bytes.
///
/// ```
/// use aberulwy::{read_station, TABLES_LENGTH};
///
/// let file = include_bytes!("../../../examples/trays/tray-1.station");
/// let (mut tables, mut plan) = ([7; TABLES_LENGTH], [7; 8]);
/// let size = read_station(file, &mut tables, &mut plan)?;
/// assert_eq!(tables, aberulwy::examples::trial_tables());
/// assert_eq!(plan[..size], [1, 2, 66]);
/// assert_eq!(plan[size..], [0; 5]);
///
/// // A byte changed: the block's sum is wrong.
/// let mut changed = *file;
/// changed[6] = 5;
/// let refusal = read_station(&changed, &mut tables, &mut plan).unwrap_err();
/// assert_eq!(refusal.number(), 52);
/// // An area that is too small for the plan.
/// let refusal = read_station(file, &mut tables, &mut plan[..2]).unwrap_err();
/// assert_eq!(refusal.number(), 55);
/// # Ok::<(), aberulwy::Refusal>(())
/// ```
pub fn read_station(
    file: &[u8],
    tables_area: &mut [u8],
    plan_area: &mut [u8],
) -> Result<usize, Refusal> {
    counted(raw::read_station(file, tables_area, plan_area))
}

/// Writes a station file, as `docs/FORMATS.md` draws it: its blocks go to the beginning of the
/// area, zeros behind. Answers the file's length, 512 bytes for each block: five hold the tables,
/// and each further one up to 504 words of the plan.
///
/// What [`read_station`] takes from a written file, into areas that hold it, is these tables and
/// this plan; and any file that it accepts is the one written from what it read.
///
/// # Errors
///
/// Refusals 1 to 8, and 11 to 14; then 74 for an area shorter than the file, which one of
/// [`LONGEST_STATION`](crate::LONGEST_STATION) bytes never is. The area then keeps its bytes.
///
/// ```
/// use aberulwy::{read_station, write_station, Place, TABLES_LENGTH};
///
/// let (tables, plan) = (aberulwy::examples::trial_tables(), [1, 2, 66]);
/// let mut area = [7; 4000];
/// let size = write_station(&tables, &plan, &mut area)?;
/// assert_eq!(size, 6 * 512);
/// assert_eq!(area[..size], include_bytes!("../../../examples/trays/tray-1.station")[..]);
/// assert_eq!(area[size..], [0; 928]);
///
/// // Read again, it gives the same tables and the same plan.
/// let (mut tables_read, mut plan_read) = ([7; TABLES_LENGTH], [7; 3]);
/// let words = read_station(&area[..size], &mut tables_read, &mut plan_read)?;
/// assert_eq!((words, tables_read, plan_read), (3, tables, plan));
///
/// // An area one byte shorter than the file.
/// let refusal = write_station(&tables, &plan, &mut area[..size - 1]).unwrap_err();
/// assert_eq!((refusal.number(), refusal.place()), (74, Place::Nowhere));
/// # Ok::<(), aberulwy::Refusal>(())
/// ```
pub fn write_station(tables: &[u8], plan: &[u8], file_area: &mut [u8]) -> Result<usize, Refusal> {
    counted(raw::write_station(tables, plan, file_area))
}

/// Lists a station file: everything that the program prints for it, refusals too, as text at
/// the beginning of the area, zeros behind. None where the area is too short, which then keeps
/// its bytes; one of [`LONGEST_LISTING`](crate::LONGEST_LISTING) bytes never is.
///
/// ```
/// use aberulwy::{list_station, LONGEST_LISTING};
///
/// let file = include_bytes!("../../../examples/trays/tray-1.station");
/// let mut out = vec![7; LONGEST_LISTING];
/// let text = list_station(file, &mut out).expect("room for every listing");
/// assert_eq!(
///     std::str::from_utf8(text),
///     Ok("end 0 steps 4 size 9 orders 3 stuck 0\n\
///         1 2 65 2 1 65 64 3 64\n\
///         11 2\n12 2\n12 5\n10 9\n")
/// );
///
/// // A file that is refused has a listing too.
/// let mut out = [7; 20];
/// assert_eq!(list_station(b"", &mut out), Some(&b"refused 51 0\n"[..]));
/// assert_eq!(out[13..], [0; 7]);
/// assert_eq!(list_station(b"", &mut out[..12]), None);
/// ```
pub fn list_station<'t>(file: &[u8], out: &'t mut [u8]) -> Option<&'t [u8]> {
    let handed = raw::list_station(file, out);
    (handed.number == 0).then(|| &out[..handed.size])
}
