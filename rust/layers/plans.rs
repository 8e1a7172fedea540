//! Plans whose table is made in one call.

use crate::modular_plan_transforms::tables::suits;
use crate::plans::{fill_table, OwnedPlan, PlanEntry, PlannedModulus};
use crate::PlainWord;
use core::iter::repeat;
use core::marker::PhantomData;

impl<T: PlainWord, F: PlanEntry<T>, S: AsRef<[F]> + AsMut<[F]> + FromIterator<F>> OwnedPlan<T, F, S> {
    /// The plan of g for n entries, with a table of its own, such as a `Vec`.
    ///
    /// It makes the table of n/2 factors and fills it, and doesn't test it again. `None` exactly as
    /// [`Plan::new`](crate::plans::Plan::new): where m is even, g isn't below m, or g doesn't suit n. Written by hand, over
    /// proved calls.
    ///
    /// # Examples
    ///
    /// ```
    /// use num_modular::plans::{Factor, OwnedPlan, PlannedModulus};
    ///
    /// let modulus = PlannedModulus::<u64>::new(17);
    /// let owned = OwnedPlan::<u64, Factor<u64>, Vec<_>>::with_length(&modulus, 4, 4).unwrap(); // 4^2 = 17 - 1
    /// let mut entries = [1, 2, 3, 4];
    /// owned.plan().transform(&mut entries);
    /// assert_eq!(entries[0], 1 + 2 + 3 + 4);
    /// assert!(OwnedPlan::<u64, Factor<u64>, Vec<_>>::with_length(&modulus, 4, 8).is_none());
    /// ```
    #[must_use]
    pub fn with_length(m: &PlannedModulus<T>, g: T, n: usize) -> Option<Self> {
        if !m.modulus().is_odd() || n % 2 != 0 || !suits(m, g, n / 2) {
            return None;
        }
        let one = F::entry(m.factor(m.residue(T::one())));
        let mut table: S = repeat(one).take(n / 2).collect();
        if table.as_ref().len() != n / 2 {
            return None;
        }
        fill_table(m, g, table.as_mut());
        Some(OwnedPlan { modulus: *m, root: g, table, entry: PhantomData })
    }
}
