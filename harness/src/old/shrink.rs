//! The search for a smaller old line that still shows a difference.

use super::read::read_old;
use super::tree::{Name, Old};
use crate::shrink::{cut, ranges, search};

/// A smallest line that was found for which `differs` holds, beginning with one for which it does.
pub fn smallest_line(line: Vec<u8>, mut differs: impl FnMut(&[u8]) -> bool) -> Vec<u8> {
    search(line, |l| smaller_lines(l), Vec::len, |l| differs(l))
}

fn smaller_lines(line: &[u8]) -> Box<dyn Iterator<Item = Vec<u8>> + '_> {
    let Some(old) = read_old(line) else {
        return Box::new(cut(line));
    };
    let parts = (0..old.parts()).flat_map(move |at| {
        let mut whole = old.clone();
        let smaller = smaller_types(whole.part_mut(at));
        smaller.into_iter().map(move |part| {
            *whole.part_mut(at) = part;
            whole.line()
        })
    });
    Box::new(parts)
}

/// A type with less inside, or something from inside it in its place.
fn smaller_types(old: &Old) -> Vec<Old> {
    let mut types = vec![Old::Letter(b'D')];
    types.extend(old.inner().into_iter().cloned());
    match old {
        Old::Map(entries) => {
            types.extend(fewer(entries).map(Old::Map));
            for at in 0..entries.len() {
                let mut shorter = entries.clone();
                shorten(&mut shorter[at].0);
                types.push(Old::Map(shorter));
            }
        }
        Old::Node(Some(labels)) => {
            types.extend(fewer(labels).map(|labels| Old::Node(Some(labels))));
            for at in 0..labels.len() {
                let mut shorter = labels.clone();
                shorten(&mut shorter[at]);
                types.push(Old::Node(Some(shorter)));
            }
        }
        Old::Relationship(Some(name)) => {
            let mut shorter = name.clone();
            shorten(&mut shorter);
            types.push(Old::Relationship(Some(shorter)));
        }
        Old::Union(members) => types.extend(fewer(members).map(Old::Union)),
        _ => {}
    }
    types
}

fn fewer<T: Clone>(things: &[T]) -> impl Iterator<Item = Vec<T>> + '_ {
    ranges(things.len()).map(|r| [&things[..r.start], &things[r.end..]].concat())
}

fn shorten(name: &mut Name) {
    name.truncate(name.len() / 2);
}
