//! Structs that keep a plan with its table, of any word, entries and container.

use num_modular::plans::{Factor, OwnedPlan, Plan, PlanEntry, PlannedModulus};
use num_modular::PlainWord;
use std::mem::size_of;

/// A ring of polynomials modulo X^n + 1, without bounds.
struct Ring<T, F, S> {
    plan: OwnedPlan<T, F, S>,
}

impl<T: PlainWord, F: PlanEntry<T>, S: AsRef<[F]>> Ring<T, F, S> {
    fn plan(&self) -> Plan<'_, T, F> {
        self.plan.plan()
    }

    fn multiply(&self, xs: &mut [T], ys: &mut [T]) {
        self.plan().convolve_negacyclic(xs, ys);
    }
}

/// A factor with a name of its own.
#[derive(Clone, Copy, Debug)]
struct Entry(Factor<u32>);

impl PlanEntry<u32> for Entry {
    fn factor(&self) -> Factor<u32> {
        self.0
    }

    fn entry(factor: Factor<u32>) -> Self {
        Entry(factor)
    }
}

/// Whether a ring computes modulo 97 by 22, a root of 4 entries.
fn is_right<F: PlanEntry<u64>, S: AsRef<[F]>>(ring: &Ring<u64, F, S>) {
    let mut xs = [1, 2, 3, 4];
    ring.plan().transform(&mut xs);
    assert_eq!(xs, [10, 51, 95, 42]);
    ring.plan().inverse(&mut xs);
    assert_eq!(xs, [1, 2, 3, 4]);
    ring.multiply(&mut xs, &mut [0, 1, 0, 0]);
    assert_eq!(xs, [97 - 4, 1, 2, 3]);
    let plan = ring.plan();
    assert_eq!((plan.modulus().modulus(), plan.root(), plan.length(), plan.bits()), (97, 22, 4, 2));
}

#[test]
fn rings_that_keep_their_plan() {
    let modulus = PlannedModulus::<u64>::new(97);
    let ring = Ring { plan: OwnedPlan::<u64, Factor<u64>, [_; 2]>::new(&modulus, 22).unwrap() };
    is_right(&ring);
    let mut table = vec![Factor::<u64>::ZERO; 2];
    assert!(Plan::new(&modulus, 22, &mut table).is_some());
    is_right(&Ring { plan: OwnedPlan::with_table(&modulus, 22, table.as_slice()).unwrap() });
    is_right(&Ring { plan: OwnedPlan::with_table(&modulus, 22, table.clone().into_boxed_slice()).unwrap() });
    is_right(&Ring { plan: OwnedPlan::with_table(&modulus, 22, table).unwrap() });
}

#[test]
fn a_clone_has_its_own_table() {
    let plan = OwnedPlan::<u32, Entry, [_; 4]>::new(&PlannedModulus::<u32>::new(17), 2).unwrap();
    let copy = plan.clone();
    drop(plan);
    let mut xs = [67, 66, 65, 64, 1, 2, 3, 4];
    copy.plan().convolve_negacyclic(&mut xs, &mut [5, 6, 7, 8, 9, 10, 11, 12]);
    assert_eq!(xs, [5, 1, 9, 10, 8, 9, 15, 11]);
    let modulus = PlannedModulus::<u32>::new(17);
    let plan = OwnedPlan::with_table(&modulus, 4, vec![modulus.factor(1), modulus.factor(4)]).unwrap();
    let copy = plan.clone();
    drop(plan);
    let mut xs = [1, 2, 3, 4];
    copy.plan().convolve_negacyclic(&mut xs, &mut [0, 1, 0, 0]);
    assert_eq!(xs, [13, 1, 2, 3]);
    assert_eq!(size_of::<OwnedPlan<u32, Entry, [Entry; 4]>>(), size_of::<PlannedModulus<u32>>() + 4 + 4 * size_of::<Entry>());
}

#[test]
fn plans_are_compared_and_shown_without_their_tables() {
    /// A struct that derives what its plan has.
    #[derive(Clone, Debug, PartialEq, Eq)]
    struct Owner<T: PlainWord, F: PlanEntry<T>, S: AsRef<[F]>>(OwnedPlan<T, F, S>);

    let modulus = PlannedModulus::<u64>::new(97);
    let by = |g: u64, count: usize| {
        let mut table = vec![Factor::<u64>::ZERO; count];
        assert!(Plan::new(&modulus, g, &mut table).is_some());
        Owner(OwnedPlan::with_table(&modulus, g, table).unwrap())
    };
    let owner = by(22, 2);
    assert_eq!(owner, by(22, 2));
    assert_eq!(owner, owner.clone());
    assert_ne!(owner, by(75, 2)); // another root of 4 entries
    assert_ne!(by(96, 1), by(22, 2)); // another length
    assert_eq!(format!("{owner:?}"), "Owner(OwnedPlan { modulus: 97, root: 22, length: 4, .. })");
}

#[test]
fn there_is_no_plan() {
    fn is_some<const N: usize>(m: u64, g: u64) -> bool {
        OwnedPlan::<u64, Factor<u64>, [_; N]>::new(&PlannedModulus::<u64>::new(m), g).is_some()
    }
    assert!(is_some::<2>(97, 22) && is_some::<1>(97, 96) && is_some::<4>(1, 0));
    assert!(!is_some::<1>(20, 19)); // an even modulus
    assert!(!is_some::<2>(97, 22 + 97)); // a root that isn't below the modulus
    assert!(!is_some::<2>(97, 5) && !is_some::<4>(97, 22)); // roots of other lengths
    assert!(!is_some::<0>(97, 22) && !is_some::<3>(97, 22)); // lengths that aren't twice a power of two
}

#[test]
fn a_table_of_another_plan() {
    let modulus = PlannedModulus::<u64>::new(97);
    let table = [1, 22].map(|power| modulus.factor(power));
    let is_some = |m: u64, g: u64, table: &[Factor<u64>]| {
        OwnedPlan::with_table(&PlannedModulus::<u64>::new(m), g, table.to_vec()).is_some()
    };
    assert!(is_some(97, 22, &table));
    assert!(!is_some(97, 75, &table)); // 75 suits too, but the table has the powers of 22
    assert!(!is_some(193, 81, &table)); // another modulus
    assert!(!is_some(97, 22, &table[..1]) && !is_some(97, 22, &[]));
}
