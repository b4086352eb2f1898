//! What the sources use of `strsim`. A call that takes memory takes an allocator, as in Rattle's
//! port. Where memory is refused, that is answered.
#![no_std]

extern crate alloc;

use alloc::vec::Vec;
use plain_std::alloc::{AllocError, Allocator};

fn add<T>(items: &mut Vec<T>, item: T) -> Result<(), AllocError> {
    items.try_reserve(1).map_err(|_| AllocError)?;
    items.push(item);
    Ok(())
}

fn gathered<T>(items: impl Iterator<Item = T>) -> Result<Vec<T>, AllocError> {
    let mut all = Vec::new();
    for item in items {
        add(&mut all, item)?;
    }
    Ok(all)
}

/// How alike two texts are, from 0 to 1, by Jaro.
pub fn jaro<A: Allocator>(_alloc: A, a: &str, b: &str) -> Result<f64, AllocError> {
    let (a, b) = (gathered(a.chars())?, gathered(b.chars())?);
    if a.is_empty() || b.is_empty() {
        return Ok(f64::from(u8::from(a.len() == b.len())));
    }
    let range = (a.len().max(b.len()) / 2).saturating_sub(1);
    let mut taken = gathered(b.iter().map(|_| false))?;
    let mut matches = Vec::new();
    for (i, c) in a.iter().enumerate() {
        let (from, to) = (i.saturating_sub(range), (i + range + 1).min(b.len()));
        if let Some(j) = (from..to).find(|j| !taken[*j] && b[*j] == *c) {
            taken[j] = true;
            add(&mut matches, *c)?;
        }
    }
    if matches.is_empty() {
        return Ok(0.0);
    }
    let others = b
        .iter()
        .zip(&taken)
        .filter(|(_, taken)| **taken)
        .map(|(c, _)| *c);
    let moved = matches
        .iter()
        .zip(others)
        .filter(|(a, b)| **a != *b)
        .count() as f64
        / 2.0;
    let m = matches.len() as f64;
    Ok((m / a.len() as f64 + m / b.len() as f64 + (m - moved) / m) / 3.0)
}
