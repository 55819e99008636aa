//! The repair of a damaged table.

use crate::{Refusal, Table, ffi};

/// The bytes that are enough for the report of any repair: no table has more bodies and slots to tell of.
///
/// ```
/// assert_eq!(hondivole::MOST_REPORT_BYTES, 2 * 16 + 4 * 677);
/// ```
pub const MOST_REPORT_BYTES: usize = 2_740;

/// What a repair did: its report, read.
///
/// ```
/// use hondivole::{Salvage, Table};
/// # use hondivole::{Edition, Refusal};
/// # let flow = include_bytes!("run.xml").as_slice();
///
/// let mut table = Table::open("01234", &[("000471", 4), ("471", 4)])?;
/// table.flow(Edition::Oil, flow, &mut [0; 32])?;
/// let good = table.clone();
/// assert_eq!(table.salvage()?, Salvage { moved: vec![0, 0], blanked: vec![] });
/// assert_eq!(table, good);
/// # Ok::<(), Refusal>(())
/// ```
#[derive(Clone, Debug, Default, PartialEq, Eq)]
pub struct Salvage {
    /// For each body, in the order it was opened in, how many of its records were kept and stand in another slot now.
    pub moved: Vec<u16>,
    /// Where in the table the blanked slots stood, as byte places, the lowest first.
    pub blanked: Vec<u32>,
}

impl Salvage {
    /// Reads a report of that many bodies and blanked slots; `None` where it is shorter.
    ///
    /// ```
    /// use hondivole::Salvage;
    ///
    /// let read = Salvage::from_report(&[0, 0, 0, 3, 0, 0, 1, 0xF0], 2, 1);
    /// assert_eq!(read, Some(Salvage { moved: vec![0, 3], blanked: vec![496] }));
    /// assert_eq!(Salvage::from_report(&[0, 0, 0, 3, 0, 0, 1], 2, 1), None);
    /// ```
    pub fn from_report(report: &[u8], bodies: usize, blanked: usize) -> Option<Salvage> {
        let (counts, rest) = report.split_at_checked(2 * bodies)?;
        let places = rest.get(..4 * blanked)?;
        Some(Salvage {
            moved: counts.as_chunks().0.iter().map(|count| u16::from_be_bytes(*count)).collect(),
            blanked: places.as_chunks().0.iter().map(|place| u32::from_be_bytes(*place)).collect(),
        })
    }
}

impl<B: AsMut<[u8]>> Table<B> {
    /// Repairs a damaged table whose head and entries are valid but for the cents that the entries keep. Of each body's slots the first valid
    /// record of each kind, esercizio and number is kept, where its esercizio is later than the body's last closed year; these move up in their order, all others are blanked, and the cents are
    /// set anew. The table is then valid; a valid one comes out the same.
    ///
    /// # Errors
    ///
    /// [`Refusal::ContentsNotValid`] where the head or an entry isn't valid; no byte changes then.
    ///
    /// ```
    /// use hondivole::{Date, Edition, Kind, Notice, Refusal, Table};
    ///
    /// # let flow = include_bytes!("run.xml").as_slice();
    /// let mut table = Table::open("01234", &[("000471", 4)])?;
    /// table.flow(Edition::Oil, flow, &mut [0; 32])?;
    /// // A byte of the second slot, which is empty, and the cents that the entry keeps.
    /// let mut bytes = table.into_bytes();
    /// bytes[64 + 96 + 50] = 1;
    /// bytes[16 + 24..16 + 40].fill(9);
    ///
    /// let mut table = Table::over(bytes);
    /// assert_eq!(table.totals("000471"), Err(Refusal::TableNotValid));
    /// let salvage = table.salvage()?;
    /// assert_eq!((salvage.moved, salvage.blanked), (vec![0], vec![160]));
    /// assert_eq!(table.totals("000471")?.used, 1);
    /// # Ok::<(), Refusal>(())
    /// ```
    pub fn salvage(&mut self) -> Result<Salvage, Refusal> {
        let table = self.bytes_mut();
        let (mut report, mut blanked) = ([0; MOST_REPORT_BYTES], 0);
        // SAFETY: the pointers and lengths are those of a slice, of an array and of a number that live apart.
        let code =
            unsafe { ffi::hondivole_salvage(table.as_mut_ptr(), table.len(), report.as_mut_ptr(), report.len(), &mut blanked) };
        Refusal::answer(code, 0, 0)?;
        // A repaired table is valid, and its first two bytes are the number of bodies.
        let bodies = usize::from(u16::from_be_bytes([table[0], table[1]]));
        Ok(Salvage::from_report(&report, bodies, blanked as usize).expect("a report has its bodies and its blanked slots"))
    }
}
