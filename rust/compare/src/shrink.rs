//! What a disagreement is, and a shorter list that still shows it.

use crate::counts::Counts;
use crate::pair;
use oracle::calls::List;
use oracle::text;

/// Port and Rust, or port and specification, do not agree.
pub enum Disagreement {
    /// After the last event of a list, on pools of so many slots.
    InList(usize, List, String),
    /// In one call, on input that the text says.
    OnDamaged(String),
}

/// What to print: for a list, the shortest that shows a disagreement.
impl From<Disagreement> for String {
    fn from(found: Disagreement) -> String {
        match found {
            Disagreement::OnDamaged(cause) => cause,
            Disagreement::InList(slots, list, cause) => {
                let (list, cause) = shrink(slots, &list).unwrap_or((list, cause));
                let list = text::print(&[list]);
                format!("{cause}\nwith {slots} slots, after the last event of\n{list}")
            }
        }
    }
}

/// Drops what comes after the disagreement, then each event without which there still is one, until
/// none can go. Gives the list and what disagrees at its end, or nothing if the list shows none.
fn shrink(slots: usize, list: &List) -> Option<(List, String)> {
    let mut shortest = list.clone();
    let mut cause = cut(slots, &mut shortest)?;
    let mut at = shortest.events.len();
    while at > 0 {
        at -= 1;
        let mut shorter = shortest.clone();
        shorter.events.remove(at);
        if let Some(found) = cut(slots, &mut shorter) {
            (shortest, cause) = (shorter, found);
            at = shortest.events.len();
        }
    }
    Some((shortest, cause))
}

/// Cuts a list off after its disagreement, if it has one, and says which.
fn cut(slots: usize, list: &mut List) -> Option<String> {
    let (done, cause) = pair::run(slots, list, &mut Counts::new(slots)).err()?;
    list.events.truncate(done);
    Some(cause)
}
