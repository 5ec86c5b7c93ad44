//! Desks compared on a file.

use crate::buffers::{Buffers, Replay};

/// A desk and its name.
pub type Desk = (&'static str, Replay);

/// Replays a file with each desk, each time in a copy of the buffers that are lent. Gives what all of them left, or where
/// one differs from the first.
pub fn compare(file: &[u8], lent: &Buffers, desks: &[Desk]) -> Result<Buffers, String> {
    let replayed = |replay: Replay| {
        let mut buffers = lent.clone();
        (replay(file, &mut buffers), buffers)
    };
    let (name, replay) = desks[0];
    let one = replayed(replay);
    for &(other_name, replay) in &desks[1..] {
        let other = replayed(replay);
        if let Some(difference) = difference((one.0, &one.1), (other.0, &other.1)) {
            return Err(format!("{name} and {other_name} differ in {difference}"));
        }
    }
    Ok(one.1)
}

/// Where two replays of a file, each with its result, first differ; none where they do not.
fn difference(one: (u64, &Buffers), other: (u64, &Buffers)) -> Option<String> {
    if one.0 != other.0 {
        return Some(format!("result: {} and {}", one.0, other.0));
    }
    let pairs = one.1.named().into_iter().zip(other.1.named());
    for ((name, one), (_, other)) in pairs {
        let same = one
            .iter()
            .zip(other)
            .take_while(|(one, other)| one == other);
        let at = same.count();
        if at < one.len().max(other.len()) {
            let (one, other) = (one.get(at), other.get(at));
            return Some(format!("{name} at {at}: {one:?} and {other:?}"));
        }
    }
    None
}
