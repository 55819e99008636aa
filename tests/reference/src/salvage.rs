//! Document 02, Req 13: the repair of a damaged table; Req 14: records of closed years.

use crate::table::{Order, SLOT, Table};

/// The answer to a repair.
#[derive(Clone, Copy, Debug, Default, PartialEq, Eq)]
pub struct SalvageAnswer {
    /// 0, or the refusal's code.
    pub code: u64,
    /// How many slots were blanked, 0 on refusal.
    pub blanked: u64,
}

/// Repairs a table whose head and entries are valid but for the kept totals: of each body's slots it keeps the first valid record of each key
/// of a year that isn't closed, moves these up in order, blanks the rest and sets the totals anew. The report holds each body's count of moved records, then the old
/// places of the blanked slots.
pub fn salvage(table: &mut [u8], report: &mut [u8]) -> SalvageAnswer {
    let refused = |code| SalvageAnswer { code, blanked: 0 };
    let Some(mut repaired) = Table::contents(table) else {
        return refused(34);
    };
    // The slots follow the contents without gaps: the first of them is where the contents alone would end.
    let slots: usize = repaired.bodies.iter().map(|body| body.slots).sum();
    let mut place = table.len() - SLOT * slots;
    let (mut moved, mut blanked): (Vec<u16>, Vec<u32>) = Default::default();
    for body in &mut repaired.bodies {
        let mut moves = 0;
        for slot in 0..body.slots {
            let bytes = &table[place..place + SLOT];
            match Order::alone(bytes) {
                Some(order) if !body.has_closed(order.esercizio) && body.orders.iter().all(|kept| kept.key() != order.key()) => {
                    moves += u16::from(body.orders.len() != slot);
                    body.orders.push(order);
                }
                _ if bytes.iter().all(|&byte| byte == 0) => {}
                _ => blanked.push(place as u32),
            }
            place += SLOT;
        }
        moved.push(moves);
    }
    let mut written: Vec<u8> = moved.iter().flat_map(|count| count.to_be_bytes()).collect();
    written.extend(blanked.iter().flat_map(|place| place.to_be_bytes()));
    let Some(room) = report.get_mut(..written.len()) else {
        return refused(35);
    };
    room.copy_from_slice(&written);
    table.copy_from_slice(&repaired.encode());
    SalvageAnswer { code: 0, blanked: blanked.len() as u64 }
}
