//! A year book: a head and the entry of each hour.
use crate::entry::Entry;
use crate::explain::{Given, NamedVersion};
use crate::false_entry::false_entry;
use crate::ffi;
use crate::float;
use crate::lent::{AsConditions, AsHead};
use crate::refusal::{Reason, Refusal};
use crate::versions::Rule;
use crate::zone::{judge, State, Zone};

/// The most entries that a book holds: the hours of a leap year.
pub const MOST_ENTRIES: usize = ffi::ENTRIES;

/// The refusal of a call that takes up the bytes of a book, which are given as the head that they begin with,
/// or nothing where it was accepted.
pub(crate) fn judge_taken_up(answer: u32, given: &Given) -> Result<(), Refusal> {
    if answer & 255 == Reason::FalseEntry as u32 {
        return Err(Refusal::of_entry(answer, |index| false_entry(given.head, index as usize)));
    }
    judge(answer, given)
}

/// A book that the engine began or took up: every entry in it is what the hour step gives.
#[derive(Clone, Debug)]
pub struct Book {
    zone: Zone,
    bytes: Vec<u8>,
    /// Where each entry ends: versions have their own lengths.
    ends: Vec<usize>,
    state: State,
    count: u64,
    last_version: u64,
}

impl Book {
    /// A book of no hours for the zone of a head, given as a [`Head`](crate::Head), as a [`Zone`] or in
    /// bytes.
    pub fn begin(head: &(impl AsHead + ?Sized)) -> Result<Self, Refusal> {
        let zone = Zone::from_head(head)?;
        let mut bytes = vec![0; zone.head().len()];
        let mut state = State::empty();
        let (mut count, mut used, mut last_version) = (0, 0, 0);
        // SAFETY: head and buffer are valid for their lengths and apart from each other, the state's
        // array has 121 floats.
        let answer = unsafe {
            ffi::hem_begin(
                zone.head().as_ptr(),
                zone.head().len(),
                bytes.as_mut_ptr(),
                bytes.len(),
                state.temps.as_mut_ptr(),
                &mut state.nodes,
                &mut count,
                &mut used,
                &mut last_version,
            )
        };
        judge(answer, &Given { head: zone.head(), ..Given::default() })?;
        Ok(Self { zone, bytes, ends: vec![], state, count, last_version })
    }

    /// The book of these bytes, after each whole entry was calculated again, by the rule of its own
    /// version, and found to be the same. A rest that is shorter than its version byte calls for, or has
    /// none, is left out: [`Book::bytes`] ends before it.
    pub fn take_up(bytes: &[u8]) -> Result<Self, Refusal> {
        float::must_be_standard()?;
        let mut state = State::empty();
        let (mut count, mut used, mut last_version) = (0, 0, 0);
        // SAFETY: `bytes` is valid for its length and only read, the state's array has 121 floats.
        let answer = unsafe {
            ffi::hem_take_up(
                bytes.as_ptr(),
                bytes.len(),
                state.temps.as_mut_ptr(),
                &mut state.nodes,
                &mut count,
                &mut used,
                &mut last_version,
            )
        };
        judge_taken_up(answer, &Given { head: bytes, ..Given::default() })?;
        let zone = Zone::from_head(bytes)?;
        let bytes = bytes[..used as usize].to_vec();
        let ends = zone.layout().entries(&bytes).map(|entry| entry.end).collect();
        Ok(Self { zone, bytes, ends, state, count, last_version })
    }

    /// Adds an hour, given as [`Conditions`](crate::Conditions) or in bytes, and gives the bytes of its entry.
    /// The hour has this [`Rule`]: an entry version, as [`ENTRY_VERSION_2`](crate::ENTRY_VERSION_2), or the
    /// [`Limits`](crate::Limits) of a plant. A version that no hour has, or that is below the last entry's, is
    /// refused with 18, a limit out of range with 19. A refusal leaves the book as it was.
    pub fn append(
        &mut self,
        conditions: &(impl AsConditions + ?Sized),
        rule: impl Into<Rule>,
    ) -> Result<&[u8], Refusal> {
        float::must_be_standard()?;
        let rule = rule.into();
        let (version, limits) = (rule.version(), rule.handed());
        let conditions = &*conditions.conditions_bytes();
        let held = self.bytes.len();
        let before = (self.count > 0).then_some(self.last_version);
        let mut used = held as u64;
        // A version without a length is refused before any room is asked for.
        let length = self.zone.layout().entry_len(version).unwrap_or(0);
        self.bytes.resize(held + length, 0);
        // SAFETY: byte strings are valid for their lengths; the buffer is the book's own and apart
        // from the zone's head; the state's array has 121 floats.
        let answer = unsafe {
            ffi::hem_append(
                self.zone.head().as_ptr(),
                self.zone.head().len(),
                self.bytes.as_mut_ptr(),
                self.bytes.len(),
                self.state.temps.as_mut_ptr(),
                &mut self.state.nodes,
                &mut self.count,
                &mut used,
                &mut self.last_version,
                conditions.as_ptr(),
                conditions.len(),
                version,
                limits.heating,
                limits.cooling,
            )
        };
        self.bytes.truncate(used as usize);
        let given = Given {
            head: self.zone.head(),
            temps: &self.state.temps,
            nodes: self.state.nodes as usize,
            conditions,
            version: Some(NamedVersion { version, before }),
            limits: Some(limits),
            ..Given::default()
        };
        judge(answer, &given)?;
        self.ends.push(self.bytes.len());
        Ok(&self.bytes[held..])
    }

    /// The zone of the book's head.
    pub fn zone(&self) -> &Zone {
        &self.zone
    }

    /// Head and entries.
    pub fn bytes(&self) -> &[u8] {
        &self.bytes
    }

    /// The node temperatures after the last hour, or start-up's where there is none.
    pub fn state(&self) -> &State {
        &self.state
    }

    /// Number of hours held.
    pub fn hours(&self) -> usize {
        self.count as usize
    }

    /// The version of the last entry, 1 where there is none.
    pub fn last_version(&self) -> u64 {
        self.last_version
    }

    /// The rule of the last entry, if there is one.
    pub fn last_rule(&self) -> Option<Rule> {
        self.entry(self.hours().checked_sub(1)?).map(|entry| entry.rule())
    }

    /// The entry of an hour, from 0, if it is held.
    pub fn entry(&self, hour: usize) -> Option<Entry<'_>> {
        let end = *self.ends.get(hour)?;
        let start = hour.checked_sub(1).map_or(self.zone.layout().head_len(), |b| self.ends[b]);
        Some(Entry::new(&self.zone, &self.bytes[start..end]))
    }

    /// All entries, in order.
    pub fn entries(&self) -> impl Iterator<Item = Entry<'_>> {
        (0..self.hours()).filter_map(|hour| self.entry(hour))
    }
}
