//! The rules a third time, over lent byte areas: what crates/model/specs says, for any bytes, garbage too.
//! It gives the answer of a call and every byte of every area after it, and is a post of its own.

mod areas;
mod cells;
mod custody;
mod exchange;
mod fields;
mod holding;
mod own;
mod page;
mod party;
mod rows;
mod saved;
mod settings;
mod state;
mod tombs;

pub use areas::{Areas, Session};
pub use cells::{CELL, COUNTED, NO_CELL, Reading, Wrong, cell_count};
pub use fields::{Device, Exchange, put_number};
pub use party::{Model, decoded};
pub use rows::{BadTag, Carried, ContactRow, Offer, Own, Row, Tombstone, table};
pub use state::{Change, Lent, Outcome, Said, State, performed, performed_with};
