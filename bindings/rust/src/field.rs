//! A field's own words.

use std::fmt;

use crate::{Refusal, ffi};

/// An element of a flow: its name and its text, as the parts of the flow themselves. The text's references are not replaced.
///
/// ```
/// use hondivole::{Field, field_at};
///
/// let flow = b"<esercizio>1999</esercizio>";
/// assert_eq!(field_at(flow, 0), Some(Field { name: "esercizio", text: "1999" }));
/// ```
#[derive(Clone, Copy, Debug, PartialEq, Eq)]
pub struct Field<'f> {
    /// The element's name.
    pub name: &'f str,
    /// What stands between its tags.
    pub text: &'f str,
}

/// The element whose `<` stands at a place of a flow, counted from 0; `None` where none does.
///
/// ```
/// use hondivole::field_at;
///
/// let flow = b"<a><b>1</b></a>";
/// assert_eq!(field_at(flow, 3).unwrap().text, "1");
/// assert_eq!(field_at(flow, 4), None);
/// assert_eq!(field_at(flow, 1_000), None);
/// ```
pub fn field_at(flow: &[u8], place: usize) -> Option<Field<'_>> {
    let (mut name, mut name_len, mut text, mut text_len) = (0, 0, 0, 0);
    // SAFETY: the pointer and length are those of a slice, the others point at numbers that live here.
    unsafe {
        ffi::hondivole_field_at(flow.as_ptr(), flow.len(), place as u64, &mut name, &mut name_len, &mut text, &mut text_len);
    }
    if name_len == 0 {
        return None;
    }
    let part = |at: u64, len: u64| flow.get(at as usize..)?.get(..len as usize).and_then(|bytes| str::from_utf8(bytes).ok());
    Some(Field { name: part(name, name_len)?, text: part(text, text_len)? })
}

impl Refusal {
    /// The field that a flow was refused for; `None` for a refusal that names no field.
    ///
    /// ```
    /// use hondivole::{Edition, Refusal, Table};
    ///
    /// # let run = include_str!("run.xml");
    /// let flow = run.replace("<importo_mandato>150.00", "<importo_mandato>00150.00");
    /// let mut table = Table::open("01234", &[("000471", 4)])?;
    /// let refusal = table.flow(Edition::Oil, flow.as_bytes(), &mut [0; 32]).unwrap_err();
    /// let field = refusal.field(flow.as_bytes()).unwrap();
    /// assert_eq!((field.name, field.text), ("importo_mandato", "00150.00"));
    /// assert_eq!(Refusal::MarkupBreaks.field(flow.as_bytes()), None);
    /// # Ok::<(), Refusal>(())
    /// ```
    pub fn field<'f>(&self, flow: &'f [u8]) -> Option<Field<'f>> {
        match self {
            Refusal::FieldBreaks { place, .. } => field_at(flow, *place),
            _ => None,
        }
    }

    /// The refusal in words, with the name, the text and the place of the field that the flow was refused for.
    ///
    /// ```
    /// use hondivole::{Edition, Refusal, Table};
    ///
    /// # let run = include_str!("run.xml");
    /// let flow = run.replace("<importo_mandato>150.00", "<importo_mandato>00150.00");
    /// let mut table = Table::open("01234", &[("000471", 4)])?;
    /// let refusal = table.flow(Edition::Oil, flow.as_bytes(), &mut [0; 32]).unwrap_err();
    /// let place = flow.find("<importo_mandato>").unwrap();
    /// assert_eq!(refusal.of_flow(flow.as_bytes()).to_string(), format!("importo_mandato \"00150.00\" at byte {place} breaks: wrong form"));
    /// assert_eq!(Refusal::MarkupBreaks.of_flow(flow.as_bytes()).to_string(), "the flow's markup breaks");
    /// # Ok::<(), Refusal>(())
    /// ```
    pub fn of_flow<'f>(&self, flow: &'f [u8]) -> InWords<'f> {
        InWords { refusal: *self, field: self.field(flow), message: false }
    }

    /// The refusal of a message that was to be read or written again, in words.
    ///
    /// ```
    /// use hondivole::{Edition, Refusal, read_message};
    ///
    /// let message = include_str!("message.xml").replace(">13<", ">20<");
    /// let refusal = read_message(Edition::Oil, message.as_bytes(), &mut []).unwrap_err();
    /// let place = message.find("<codice_errore>").unwrap();
    /// let words = refusal.of_message(message.as_bytes()).to_string();
    /// assert_eq!(words, format!("codice_errore \"20\" at byte {place} breaks: right form but a value outside its range"));
    /// assert_eq!(Refusal::FlowTooLong.of_message(b"").to_string(), "the message is longer than 65,536 bytes");
    /// ```
    pub fn of_message<'f>(&self, message: &'f [u8]) -> InWords<'f> {
        InWords { refusal: *self, field: self.field(message), message: true }
    }
}

/// A refusal of a flow or a message, told with the field that it names: see [`Refusal::of_flow`] and [`Refusal::of_message`].
#[derive(Clone, Copy, Debug, PartialEq, Eq)]
pub struct InWords<'f> {
    refusal: Refusal,
    field: Option<Field<'f>>,
    message: bool,
}

impl fmt::Display for InWords<'_> {
    fn fmt(&self, to: &mut fmt::Formatter) -> fmt::Result {
        match (self.refusal, self.field) {
            (Refusal::FieldBreaks { place, cause }, Some(Field { name, text })) => {
                write!(to, "{name} {text:?} at byte {place} breaks: {cause}")
            }
            (Refusal::FlowTooLong, _) if self.message => to.write_str("the message is longer than 65,536 bytes"),
            (Refusal::MarkupBreaks, _) if self.message => to.write_str("the message's markup breaks"),
            (Refusal::StructureBreaks, _) if self.message => to.write_str("the message's structure breaks"),
            (refusal, _) => refusal.fmt(to),
        }
    }
}
