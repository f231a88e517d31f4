//! From the values as written to the 18 values of an arc (document 01, "Annotating").

use crate::reader::{Entry, Value};
use crate::sheet::VALUES;

/// "Rows are 01, 10, 0z, z1, 1z, z0 (5.4.1). One value goes to all rows. Two: 1,2,1,1,2,2. Three:
/// 1,2,3,1,3,2. Four or five: as six with trailing `()`." A check's values go to rows 1 and 2.
pub fn rows(entry: &Entry) -> [Value; 6] {
    let check = entry.kind.facts().check;
    let order = match entry.values.len() {
        1 if !check => [0, 0, 0, 0, 0, 0],
        2 if !check => [0, 1, 0, 0, 1, 1],
        3 => [0, 1, 2, 0, 2, 1],
        _ => [0, 1, 2, 3, 4, 5],
    };
    order.map(|number: usize| entry.values.get(number).copied().unwrap_or([None; 3]))
}

/// The numbers that an entry supplies to an arc, each with its slot: "six rows of three sets, row
/// first".
pub fn supplied(entry: &Entry) -> Vec<(usize, i64)> {
    let rows = rows(entry);
    (0..VALUES).filter_map(|slot| rows[slot / 3][slot % 3].map(|number| (slot, number))).collect()
}
