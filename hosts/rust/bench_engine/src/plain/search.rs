//! The two ways to search the slots: by a loop over the index, and by `position`.

pub trait Search {
    /// The first slot that carries the number.
    fn own(ids: &[u32], subscriber: u32) -> Option<usize>;
    /// The first slot that is empty, or is free by its plan's number and its TAT.
    fn free_tat(
        ids: &[u32],
        numbers: &[u8],
        tats: &[u64],
        is_free: impl Fn(u8, u64) -> bool,
    ) -> Option<usize>;
    /// The first slot that is empty, or is free by its plan's number, its level and its last moment.
    fn free_bucket(
        ids: &[u32],
        numbers: &[u8],
        levels: &[u64],
        lasts: &[u64],
        is_free: impl Fn(u8, u64, u64) -> bool,
    ) -> Option<usize>;
}

pub struct Index;

#[allow(clippy::needless_range_loop, clippy::manual_find)] // these loops are what is measured
impl Search for Index {
    fn own(ids: &[u32], subscriber: u32) -> Option<usize> {
        for i in 0..ids.len() {
            if ids[i] == subscriber {
                return Some(i);
            }
        }
        None
    }

    fn free_tat(
        ids: &[u32],
        numbers: &[u8],
        tats: &[u64],
        is_free: impl Fn(u8, u64) -> bool,
    ) -> Option<usize> {
        for i in 0..ids.len() {
            if ids[i] == 0 || is_free(numbers[i], tats[i]) {
                return Some(i);
            }
        }
        None
    }

    fn free_bucket(
        ids: &[u32],
        numbers: &[u8],
        levels: &[u64],
        lasts: &[u64],
        is_free: impl Fn(u8, u64, u64) -> bool,
    ) -> Option<usize> {
        for i in 0..ids.len() {
            if ids[i] == 0 || is_free(numbers[i], levels[i], lasts[i]) {
                return Some(i);
            }
        }
        None
    }
}

pub struct Position;

impl Search for Position {
    fn own(ids: &[u32], subscriber: u32) -> Option<usize> {
        ids.iter().position(|&id| id == subscriber)
    }

    fn free_tat(
        ids: &[u32],
        numbers: &[u8],
        tats: &[u64],
        is_free: impl Fn(u8, u64) -> bool,
    ) -> Option<usize> {
        let mut slots = ids.iter().zip(numbers).zip(tats);
        slots.position(|((&id, &number), &tat)| id == 0 || is_free(number, tat))
    }

    fn free_bucket(
        ids: &[u32],
        numbers: &[u8],
        levels: &[u64],
        lasts: &[u64],
        is_free: impl Fn(u8, u64, u64) -> bool,
    ) -> Option<usize> {
        let mut slots = ids.iter().zip(numbers).zip(levels).zip(lasts);
        slots.position(|(((&id, &number), &level), &last)| id == 0 || is_free(number, level, last))
    }
}
