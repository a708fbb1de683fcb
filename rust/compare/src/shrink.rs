//! A failing list made smaller: it loses items while it still fails.

use crate::world::Event;

/// How a history begins, and its events.
pub type Whole<S, W> = (S, Vec<Event<W>>);

/// The histories that are a little smaller than one.
pub type Smaller<S, W> = fn(&S, &[Event<W>]) -> Vec<Whole<S, W>>;

/// Fewer events, and then one of the smaller histories, as long as it fails.
pub fn least<S: Clone, W: Copy>(
    mut least: Whole<S, W>,
    smaller: Smaller<S, W>,
    fails: &dyn Fn(&S, &[Event<W>]) -> bool,
) -> Whole<S, W> {
    loop {
        least.1 = fewer(least.1.clone(), &mut |events| fails(&least.0, events));
        let mut tries = smaller(&least.0, &least.1).into_iter();
        match tries.find(|(setting, events)| fails(setting, events)) {
            Some(found) => least = found,
            None => return least,
        }
    }
}

/// The same events with one mileage proposed smaller. `mileage`: where the mileage of a proposal stands.
pub fn lower_mileages<W: Copy>(
    events: &[Event<W>],
    mileage: fn(&mut W) -> Option<&mut u32>,
) -> Vec<Vec<Event<W>>> {
    let mut tries = Vec::new();
    for at in 0..events.len() {
        let given = mileage(&mut events[at].what.clone()).copied().unwrap_or(0);
        for less in (0..given.min(4)).chain((given > 100).then_some(given % 10)) {
            let mut other = events.to_vec();
            mileage(&mut other[at].what)
                .into_iter()
                .for_each(|to| *to = less);
            tries.push(other);
        }
    }
    tries
}

/// Without the events of a unit; those above it take the number before theirs.
pub fn without_unit<W: Copy>(events: &[Event<W>], unit: u32) -> Vec<Event<W>> {
    let mut left = events.to_vec();
    left.retain(|event| event.unit != unit);
    for event in &mut left {
        event.unit -= u32::from(event.unit > unit);
    }
    left
}

/// Fewer items that still fail: none of those left can be taken away alone.
pub fn fewer<T: Clone>(mut items: Vec<T>, fails: &mut dyn FnMut(&[T]) -> bool) -> Vec<T> {
    let mut piece = items.len().div_ceil(2).max(1);
    loop {
        let before = items.len();
        let mut at = 0;
        while at < items.len() {
            let mut left = items[..at].to_vec();
            left.extend_from_slice(&items[items.len().min(at + piece)..]);
            if fails(&left) {
                items = left;
            } else {
                at += piece;
            }
        }
        if piece > 1 {
            piece = piece.div_ceil(2);
        } else if items.len() == before {
            return items;
        }
    }
}
