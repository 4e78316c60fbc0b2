//! Memory for a whole picture, message or table.

/// Zeros, which take no memory before they are written to; none where there is not that much.
pub fn zeros<T: Clone + Default>(length: usize) -> Option<Vec<T>> {
    room::<T>(length)?;
    Some(vec![T::default(); length])
}

/// An empty vector with room for so many; none where there is not that much.
pub fn room<T>(length: usize) -> Option<Vec<T>> {
    let mut empty = Vec::new();
    empty.try_reserve_exact(length).ok()?;
    Some(empty)
}
