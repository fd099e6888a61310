//! Test 2: the lent list of palette and metadata modules.

use crate::geometry::Layout;
use crate::params::Refusal;

pub const MOST_ENTRIES: usize = 1_024;

/// Fixes the modules of the list, or refuses it. A module fixed already belongs
/// to a pattern or to an earlier entry.
pub fn reserve(layout: &mut Layout, list: &[u16], colours: u32) -> Result<(), Refusal> {
    let refuse = |place| Err(Refusal { number: 2, place });
    if list.len() % 3 != 0 {
        return refuse(list.len() / 3);
    }
    if list.len() / 3 > MOST_ENTRIES {
        return refuse(MOST_ENTRIES);
    }
    for (place, entry) in list.chunks(3).enumerate() {
        let colour = entry[2];
        match layout.index(entry[0].into(), entry[1].into()) {
            Some(index) if layout.fixed(index).is_none() && u32::from(colour) < colours => {
                layout.fix(index, colour as u8)
            }
            _ => return refuse(place),
        }
    }
    Ok(())
}
