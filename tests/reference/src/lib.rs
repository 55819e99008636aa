//! Documents 01 and 02 written a second time.
//!
//! This crate answers the order desk's calls from the words of document 01, of document 02 as far as its requests are in, and the
//! readings of their open points, and from nothing else: it shares no line, no structure and no order of work with the library it is compared with. A flow is read into a
//! tree with a stack of open elements, a table is decoded into plain structs (bodies with a list of orders), and a changed table is
//! encoded afresh. Where clear and fast part ways, this crate is clear.
//!
//! ```
//! use reference::{open, request, totals};
//!
//! let mut table = vec![0; 880];
//! assert_eq!(open(&request(b"01234", &[(b"000471", 4), (b"471", 4)]), &mut table), 0);
//! assert_eq!(totals(&table, b"471").code, 0);
//! assert_eq!(totals(&table, b"0471").code, 7);
//! ```

pub mod close;
pub mod desk;
pub mod fields;
pub mod markup;
pub mod message;
pub mod salvage;
pub mod structure;
pub mod table;
pub mod target;

pub use close::{CloseAnswer, close};
pub use desk::{FlowAnswer, Notice, NoticeAnswer, Totals, convert, execute, flow, journal, open, request, reverse, totals};
pub use salvage::{SalvageAnswer, salvage};
pub use table::{Body, Date, Form, Kind, Line, LineState, Order, State, Table};

/// The editions of a flow.
#[derive(Clone, Copy, Debug, PartialEq, Eq)]
pub enum Edition {
    /// Edition 1, document 01's.
    Oil = 1,
    /// Edition 2: the header of OPI 1.2.2, an Id on the root, a zone.
    Opi = 2,
}

impl Edition {
    /// The edition of that number, if there is one.
    pub fn numbered(number: u64) -> Option<Edition> {
        [Edition::Oil, Edition::Opi].into_iter().find(|edition| *edition as u64 == number)
    }
}

/// The most bytes a flow has.
pub const LONGEST_FLOW: usize = 32_768;

/// The most orders a flow holds.
pub const MOST_ORDERS: usize = 64;

/// The most lines an order has.
pub const MOST_LINES: usize = 8;

/// The outcome bytes of one order.
pub const OUTCOME: usize = 16;
