//! Where things stand in the bytes of a head that was accepted, and of its book.
use crate::bytes::{f64_at, length_at};
use crate::conditions::{ElementHour, COMMON_SIZE};
use crate::versions::{has_limits, is_known};
use std::ops::Range;

/// Bytes of a head before its first element, counted from after the length.
pub(crate) const HEAD_COMMON: usize = 53;
/// Where the version byte of an entry stands: behind its length.
pub(crate) const ENTRY_VERSION_AT: usize = 4;
/// Bytes of an entry before its conditions: length and version.
pub(crate) const ENTRY_CONDITIONS: usize = 5;
/// Bytes of the limits behind the conditions, in an entry that has them: heating and cooling.
pub(crate) const LIMITS: usize = 16;
/// Bytes of the results before the temperatures: heating, cooling, rate, trigger and its rate.
pub(crate) const RESULTS: usize = 33;
/// The number of the transparent kind.
pub(crate) const TRANSPARENT: u8 = 4;

/// Capacities and conductances of a kind of element.
pub(crate) fn nodes_and_gaps(kind: u8) -> (usize, usize) {
    if kind == TRANSPARENT {
        (2, 1)
    } else {
        (5, 4)
    }
}

/// Bytes of an element in a head: kind, treatment count, seven floats, its nodes, its treatments and
/// its part of the first hour.
pub(crate) fn element_size(kind: u8, treatments: usize) -> usize {
    let (nodes, gaps) = nodes_and_gaps(kind);
    2 + 8 * (7 + nodes + gaps + treatments) + ElementHour::SIZE
}

/// The sizes that a head fixes for its conditions and entries.
#[derive(Clone, Debug, PartialEq)]
pub struct Layout {
    head_len: usize,
    useful_area: f64,
    treatments: Vec<usize>,
    nodes: usize,
}

impl Layout {
    /// The layout of a head that the engine accepted.
    pub(crate) fn of_accepted(head: &[u8]) -> Self {
        let body = &head[4..];
        let mut layout = Self {
            head_len: 4 + length_at(head, 0),
            useful_area: f64_at(body, 5),
            treatments: vec![],
            nodes: 0,
        };
        let mut at = HEAD_COMMON;
        for _ in 0..body[2] {
            let (kind, treatments) = (body[at], body[at + 1] as usize);
            layout.nodes += nodes_and_gaps(kind).0;
            layout.treatments.push(treatments);
            at += element_size(kind, treatments);
        }
        layout.nodes += 1;
        layout
    }

    /// Bytes of the head, its length included.
    pub fn head_len(&self) -> usize {
        self.head_len
    }

    /// Useful floor area, m².
    pub fn useful_area(&self) -> f64 {
        self.useful_area
    }

    /// Number of elements.
    pub fn elements(&self) -> usize {
        self.treatments.len()
    }

    /// Number of node temperatures, the air included.
    pub fn nodes(&self) -> usize {
        self.nodes
    }

    /// Bytes of the conditions of an hour.
    pub fn conditions_len(&self) -> usize {
        COMMON_SIZE + ElementHour::SIZE * self.elements()
    }

    /// Bytes of an entry of this version, its 4-byte length included, where hours have that version.
    pub fn entry_len(&self, version: u64) -> Option<usize> {
        is_known(version).then(|| self.results_at(version) + RESULTS + 8 * self.nodes)
    }

    /// Where the results begin in an entry of this version: behind length, version, conditions and limits.
    pub(crate) fn results_at(&self, version: u64) -> usize {
        let limits = if has_limits(version) { LIMITS } else { 0 };
        self.limits_at() + limits
    }

    /// Where the limits begin in an entry that has them.
    pub(crate) fn limits_at(&self) -> usize {
        ENTRY_CONDITIONS + self.conditions_len()
    }

    /// Where the entries stand in the bytes of a book, as a take-up finds them: each is as long as its
    /// version byte calls for. A rest that is shorter than that, or has no version byte, is none. A rest
    /// whose version byte is unknown is one entry, a false one.
    pub fn entries<'a>(&'a self, book: &'a [u8]) -> impl Iterator<Item = Range<usize>> + 'a {
        let mut at = self.head_len;
        std::iter::from_fn(move || {
            let entry = self.entry_from(book, at)?;
            at = entry.end;
            Some(entry)
        })
    }

    fn entry_from(&self, book: &[u8], at: usize) -> Option<Range<usize>> {
        let rest = book.get(at..)?;
        let version = *rest.get(ENTRY_VERSION_AT)?;
        let length = self.entry_len(version.into()).unwrap_or(rest.len());
        (length <= rest.len()).then_some(at..at + length)
    }

    /// Treatments of each element.
    pub(crate) fn treatments(&self) -> &[usize] {
        &self.treatments
    }
}
