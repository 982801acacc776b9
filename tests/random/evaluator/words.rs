//! Words by their bits.

/// All words that are 0 off the mask, ascending.
pub fn ascending(mask: u64) -> impl Iterator<Item = u64> {
    let mut next = Some(0u64);
    std::iter::from_fn(move || {
        let word = next?;
        next = if word == mask { None } else { Some((word | !mask).wrapping_add(1) & mask) };
        Some(word)
    })
}
