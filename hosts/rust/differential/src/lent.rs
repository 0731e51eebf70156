//! What a host lends to the archive: columns of any lengths, the newest moment and five numbers for the answer, each between
//! guards that nobody may write.

use model::table::{Stored, Table};
use std::ops::{Deref, DerefMut};

/// How many guards stand on each side: none in the build for a memory checker, which then sees where each block ends.
const GUARDS: usize = if cfg!(feature = "exact") { 0 } else { 2 };

/// A column between guards. An empty one has an address too.
#[derive(Clone)]
pub struct Guarded<T> {
    cells: Vec<T>,
    guard: T,
}

impl<T: Copy + PartialEq> Guarded<T> {
    pub fn new(column: &[T], guard: T) -> Guarded<T> {
        let mut cells = vec![guard; column.len() + 2 * GUARDS];
        cells[GUARDS..GUARDS + column.len()].copy_from_slice(column);
        Guarded { cells, guard }
    }

    pub fn inside(&self) -> &[T] {
        &self.cells[GUARDS..self.cells.len() - GUARDS]
    }

    pub fn inside_mut(&mut self) -> &mut [T] {
        let end = self.cells.len() - GUARDS;
        &mut self.cells[GUARDS..end]
    }

    pub fn intact(&self) -> bool {
        let end = self.cells.len() - GUARDS;
        let mut guards = self.cells[..GUARDS].iter().chain(&self.cells[end..]);
        guards.all(|cell| *cell == self.guard)
    }

    /// Writes the first cell after the column, as a faulty archive might.
    pub fn overrun(&mut self, value: T) {
        let end = self.cells.len() - GUARDS;
        self.cells[end] = value;
    }

    /// Writes the cells before the column.
    pub fn underrun(&mut self, value: T) {
        self.cells[..GUARDS].fill(value);
    }
}

impl<T: Copy + PartialEq> Deref for Guarded<T> {
    type Target = [T];

    fn deref(&self) -> &[T] {
        self.inside()
    }
}

impl<T: Copy + PartialEq> DerefMut for Guarded<T> {
    fn deref_mut(&mut self) -> &mut [T] {
        self.inside_mut()
    }
}

/// The ids, the numbers of the slots' plans, the columns of the record in the order of `Stored::COLUMNS`, and the newest moment,
/// which is one number.
#[derive(Clone)]
pub struct Lent {
    pub ids: Guarded<u32>,
    pub plan_numbers: Guarded<u8>,
    pub columns: Vec<Guarded<u64>>,
    pub newest: Guarded<u64>,
}

impl Lent {
    pub fn new<R: Stored>(table: &Table<R>) -> Lent {
        let guarded = |column: &[u64]| Guarded::new(column, 0xa5a5_a5a5_a5a5_a5a5);
        let columns = table.columns.iter();
        Lent {
            ids: Guarded::new(&table.ids, 0xa5a5_a5a5),
            plan_numbers: Guarded::new(&table.plan_numbers, 0xa5),
            columns: columns.map(|column| guarded(column)).collect(),
            newest: guarded(&[table.newest]),
        }
    }

    pub fn intact(&self) -> bool {
        self.ids.intact()
            && self.plan_numbers.intact()
            && self.columns.iter().all(Guarded::intact)
            && self.newest.intact()
    }

    pub fn holds<R: Stored>(&self, table: &Table<R>) -> bool {
        let mut pairs = self.columns.iter().zip(&table.columns);
        self.ids.inside() == table.ids
            && self.plan_numbers.inside() == table.plan_numbers
            && pairs.all(|(ours, theirs)| ours.inside() == theirs)
            && self.newest.inside() == [table.newest]
    }
}
