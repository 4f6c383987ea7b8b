//! Checks a division that somebody claims.

use crate::divide::Key;
use crate::point::Point;
use crate::table::Table;

/// The ids of all parts, one after another, and where each part ends among them.
#[derive(Default)]
pub struct Claim {
    pub ids: Vec<u64>,
    pub ends: Vec<usize>,
}

pub enum Verdict {
    WrongCount(u64),
    EmptyPart(u64),
    Unknown(u64),
    Twice(u64),
    Missing(u64),
    Overlap(u64, u64),
    NotCrowded(u64),
}

/// What is said to be right of a claim.
#[derive(Clone, Copy)]
pub struct Certificate {
    pub parts: u64,
    pub instant: Option<Point>,
}

impl Claim {
    fn parts(&self) -> impl Iterator<Item = &[u64]> {
        let starts = [0].into_iter().chain(self.ends.iter().copied());
        starts
            .zip(&self.ends)
            .map(|(start, end)| &self.ids[start..*end])
    }
}

/// The first fault of a claimed division of the rows that a commit shows.
pub fn first_fault(
    table: &Table,
    commit: u64,
    claim: &Claim,
    certificate: Certificate,
) -> Option<Verdict> {
    let parts = claim.ends.len() as u64;
    if parts != certificate.parts {
        return Some(Verdict::WrongCount(parts));
    }
    if let Some(part) = claim.parts().position(<[u64]>::is_empty) {
        return Some(Verdict::EmptyPart(part as u64));
    }
    wrong_id(table, commit, claim)
        .or_else(|| first_overlap(table, claim))
        .or_else(|| wrong_crowd(table, commit, certificate))
}

/// The place of the version that has an id; without one it is past all.
fn place_of(id: u64) -> usize {
    usize::try_from(id).unwrap_or(usize::MAX).wrapping_sub(1)
}

fn wrong_id(table: &Table, commit: u64, claim: &Claim) -> Option<Verdict> {
    if let Some(id) = claim
        .ids
        .iter()
        .find(|id| !table.shows(commit, place_of(**id)))
    {
        return Some(Verdict::Unknown(*id));
    }
    let mut marks = vec![false; table.len()];
    let mut is_marked = |id: u64| std::mem::replace(&mut marks[place_of(id)], true);
    if let Some(id) = claim.ids.iter().find(|id| is_marked(**id)) {
        return Some(Verdict::Twice(*id));
    }
    let missing = table.shown(commit).find(|place| !marks[*place])?;
    Some(Verdict::Missing(missing as u64 + 1))
}

fn first_overlap(table: &Table, claim: &Claim) -> Option<Verdict> {
    let mut keys = Vec::new();
    for part in claim.parts() {
        keys.clear();
        keys.extend(
            part.iter()
                .map(|id| Key::new(table.period(place_of(*id)), *id as u32)),
        );
        keys.sort_unstable();
        let overlap = keys
            .windows(2)
            .find(|pair| pair[0].period().overlaps(pair[1].period()));
        if let Some(pair) = overlap {
            return Some(Verdict::Overlap(pair[0].id().into(), pair[1].id().into()));
        }
    }
    None
}

fn wrong_crowd(table: &Table, commit: u64, certificate: Certificate) -> Option<Verdict> {
    let is_empty = table.shown(commit).next().is_none();
    let holds = match certificate.instant {
        Some(instant) => table.shown_at(commit, instant).count() as u64,
        None => 0,
    };
    let is_right = match certificate.instant {
        Some(_) => !is_empty && holds == certificate.parts,
        None => is_empty,
    };
    (!is_right).then_some(Verdict::NotCrowded(holds))
}
