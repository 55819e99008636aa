//! The structure: which elements stand where.
//!
//! The tree is turned into the flow's fields, still as text. Everything that breaks here has one answer: there is no such flow.

use crate::markup::{Content, Element};
use crate::table::Kind;
use crate::{Edition, MOST_LINES, MOST_ORDERS};

/// The text of a field and the place of its element's `<`.
#[derive(Clone, Copy, Debug, PartialEq, Eq)]
pub struct Field<'f> {
    /// The place of `<`.
    pub at: usize,
    /// The text as it stands in the flow.
    pub text: &'f [u8],
}

/// A flow's fields in the order they stand in.
#[derive(Clone, Debug, PartialEq, Eq)]
pub struct RawFlow<'f> {
    /// `codice_ABI_BT`
    pub abi: Field<'f>,
    /// `identificativo_flusso`
    pub identifier: Field<'f>,
    /// `data_ora_creazione_flusso`
    pub created: Field<'f>,
    /// `codice_ente_BT`
    pub body: Field<'f>,
    /// `esercizio`
    pub esercizio: Field<'f>,
    /// The orders, 1 to 64.
    pub orders: Vec<RawOrder<'f>>,
}

/// An order's fields.
#[derive(Clone, Debug, PartialEq, Eq)]
pub struct RawOrder<'f> {
    /// Mandato or reversale.
    pub kind: Kind,
    /// `tipo_operazione`
    pub operation: Field<'f>,
    /// `numero_...`
    pub number: Field<'f>,
    /// `data_...`
    pub date: Field<'f>,
    /// `importo_...`
    pub total: Field<'f>,
    /// The lines, 1 to 8.
    pub lines: Vec<RawLine<'f>>,
}

/// A line's fields.
#[derive(Clone, Debug, PartialEq, Eq)]
pub struct RawLine<'f> {
    /// `progressivo_...`
    pub progressivo: Field<'f>,
    /// `importo_...`
    pub amount: Field<'f>,
    /// `anagrafica_...`
    pub name: Field<'f>,
    /// The line that a line of a SOSTITUZIONE replaces; other operations name none.
    pub named: Option<RawNamed<'f>>,
}

/// The fields of `sostituzione_...`.
#[derive(Clone, Debug, PartialEq, Eq)]
pub struct RawNamed<'f> {
    /// `numero_..._da_sostituire`
    pub number: Field<'f>,
    /// `progressivo_..._da_sostituire`
    pub line: Field<'f>,
    /// `esercizio_..._da_sostituire`
    pub esercizio: Field<'f>,
}

/// Reads the structure of a flow of an edition from the root element; `None` when it breaks.
pub fn read<'f>(root: &Element<'f>, edition: Edition) -> Option<RawFlow<'f>> {
    if root.name != b"flusso_ordinativi" {
        return None;
    }
    let four = ["codice_ABI_BT", "identificativo_flusso", "data_ora_creazione_flusso", "codice_ente_BT"];
    let of_orders = ["mandato", "reversale"];
    let (header, esercizio, orders) = match edition {
        Edition::Oil => {
            let ([a, b, c, d, esercizio], orders) =
                children(root, [four[0], four[1], four[2], four[3], "esercizio"], &of_orders, MOST_ORDERS)?;
            ([a, b, c, d], esercizio, orders)
        }
        Edition::Opi => {
            let ([testata, esercizio], orders) = children(root, ["testata_flusso", "esercizio"], &of_orders, MOST_ORDERS)?;
            (children(testata, four, &[], 0)?.0, esercizio, orders)
        }
    };
    Some(RawFlow {
        abi: field(header[0])?,
        identifier: field(header[1])?,
        created: field(header[2])?,
        body: field(header[3])?,
        esercizio: field(esercizio)?,
        orders: orders.into_iter().map(order).collect::<Option<_>>()?,
    })
}

fn order<'f>(element: &Element<'f>) -> Option<RawOrder<'f>> {
    let (kind, order, party) = match element.name {
        b"mandato" => (Kind::Mandato, "mandato", "beneficiario"),
        _ => (Kind::Reversale, "reversale", "versante"),
    };
    let once = ["tipo_operazione", &format!("numero_{order}"), &format!("data_{order}"), &format!("importo_{order}")];
    let repeated = format!("informazioni_{party}");
    let (fields, lines) = children(element, once, &[&repeated], MOST_LINES)?;
    let operation = field(fields[0])?;
    // Only this very text asks for the structure; with any other, also a broken one, it is passed over.
    let replaces = operation.text == b"SOSTITUZIONE";
    let lines = lines.into_iter().map(|element| line(element, order, party, replaces));
    Some(RawOrder {
        kind,
        operation,
        number: field(fields[1])?,
        date: field(fields[2])?,
        total: field(fields[3])?,
        lines: lines.collect::<Option<_>>()?,
    })
}

fn line<'f>(element: &Element<'f>, order: &str, party: &str, replaces: bool) -> Option<RawLine<'f>> {
    let [progressivo, amount, replaced] =
        [format!("progressivo_{party}"), format!("importo_{party}"), format!("sostituzione_{order}")];
    let (fields, named) = if replaces {
        let ([a, b, c, d], _) = children(element, [&progressivo, &amount, party, &replaced], &[], 0)?;
        ([a, b, c], Some(named_line(d, order, party)?))
    } else {
        (children(element, [&progressivo, &amount, party], &[], 0)?.0, None)
    };
    let (names, _) = children(fields[2], [&*format!("anagrafica_{party}")], &[], 0)?;
    Some(RawLine { progressivo: field(fields[0])?, amount: field(fields[1])?, name: field(names[0])?, named })
}

fn named_line<'f>(element: &Element<'f>, order: &str, party: &str) -> Option<RawNamed<'f>> {
    let once =
        [("numero", order), ("progressivo", party), ("esercizio", order)].map(|(what, of)| format!("{what}_{of}_da_sostituire"));
    let (fields, _) = children(element, once.each_ref().map(String::as_str), &[], 0)?;
    Some(RawNamed { number: field(fields[0])?, line: field(fields[1])?, esercizio: field(fields[2])? })
}

/// The named children of an element: each of `once` exactly once and in this order, then 1 to `most` of the names `repeated` (none
/// where `most` is 0). Children of other names are passed over.
fn children<'e, 'f, const N: usize>(
    parent: &'e Element<'f>,
    once: [&str; N],
    repeated: &[&str],
    most: usize,
) -> Option<([&'e Element<'f>; N], Vec<&'e Element<'f>>)> {
    let Content::Elements(children) = &parent.content else {
        return None;
    };
    let is_among = |element: &Element, names: &[&str]| names.iter().any(|name| name.as_bytes() == element.name);
    let mut named: Vec<_> = children.iter().filter(|child| is_among(child, &once) || is_among(child, repeated)).collect();
    if named.len() < N + most.min(1) || named.len() > N + most {
        return None;
    }
    let rest = named.split_off(N);
    let in_order = named.iter().zip(once).all(|(child, name)| is_among(child, &[name]));
    let only_repeated = rest.iter().all(|child| is_among(child, repeated));
    let first: [_; N] = named.try_into().ok()?;
    (in_order && only_repeated).then_some((first, rest))
}

/// A childless named element holds text only.
fn field<'f>(element: &Element<'f>) -> Option<Field<'f>> {
    match element.content {
        Content::Text(text) => Some(Field { at: element.at, text }),
        Content::Elements(_) => None,
    }
}
