//! The calls of the Cargo crate on the list of docs/secrets.md, each with its secret operands marked, for
//! `checks/constant-time`. Each line of the output is how many reports memcheck makes of a call, and the call. What isn't
//! made by `secret` is public.
use num_modular::applications::lattice_rings::{ml_dsa, ml_kem};
use num_modular::applications::ring_codes::erasure::*;
use num_modular::plans::{Factor, Plan, PlannedModulus};
use num_modular::ring::*;
use num_modular::secrets::{inv_secret, pow_secret, SecretWord};
use num_modular::*;

extern "C" {
    fn mark_secret(place: *mut u8, bytes: usize);
    fn reports() -> u32;
}

/// The value, of which LLVM then knows nothing. (`black_box` of the standard library isn't in the lowest version.)
fn black_box<T>(value: T) -> T {
    let value = std::mem::ManuallyDrop::new(value);
    unsafe { std::ptr::read_volatile(&*value as *const T) }
}

/// A value that memcheck follows: it reports each jump and each address that depends on it.
fn secret<T: Copy>(value: T) -> T {
    let mut place = Box::new(black_box(value));
    unsafe { mark_secret((&mut *place as *mut T).cast(), std::mem::size_of::<T>()) };
    black_box(*place)
}

/// Makes a call, and returns how much was reported of it. LLVM knows no operand, and moves nothing out of it.
#[inline(never)]
fn counted<X>(call: impl FnOnce() -> X) -> u32 {
    let before = unsafe { reports() };
    let _result = black_box(black_box(call)());
    unsafe { reports() - before }
}

fn tried<X>(of: &str, name: &str, call: impl FnOnce() -> X) {
    println!("{}\t{of}::{name}", counted(call));
}

/// The same of a call in which so many reports are accepted.
fn accepted<X>(reports: usize, of: &str, name: &str, call: impl FnOnce() -> X) {
    println!("{}\t<= {reports}\t{of}::{name}", counted(call));
}

/// The same of a call that tells at its end whether there is a result, or two are equal: that is one report.
fn told<X>(of: &str, name: &str, call: impl FnOnce() -> X) {
    accepted(1, of, name, call);
}

trait Word: RingWord + TryFrom<u128> {
    fn word(n: u128) -> Self {
        Self::try_from(n).ok().unwrap()
    }
}
impl<T: RingWord + TryFrom<u128>> Word for T {}

fn form<T: Word, R: Reducer<T>>(r: &R, n: u128) -> T {
    secret(r.transform(T::word(n)))
}

fn forms<T: Word, R: Reducer<T>>(r: &R, count: usize, from: u128) -> Vec<T> {
    (from..).take(count).map(|it| form(r, it * it % 251)).collect()
}

const LENGTHS: [usize; 8] = [0, 1, 2, 3, 5, 8, 17, 40];
const POWERS: [usize; 6] = [2, 4, 8, 16, 64, 128];

/// Values below m, in pairs.
fn pairs(m: u128) -> [(u128, u128); 4] {
    [(0, 1 % m), (m - 1, m / 2), (m / 3, m - 1), (m / 2, m / 2)]
}

fn words<T: Word, R: Reducer<T>>(of: &str, r: &R, m: u128) {
    for (x, _) in pairs(m) {
        let word = secret(T::word(x));
        tried(of, "transform", || r.transform(word));
    }
}

fn word_lists<T: Word, R: Reducer<T>>(of: &str, r: &R, _m: u128) {
    for n in LENGTHS {
        let (listed, mut places) = (forms(r, n, 2), forms(r, n, 1));
        tried(of, "load_forms", || load_forms(r, &listed, &mut places));
    }
}

fn sums<T: Word, R: Reducer<T>>(of: &str, r: &R, m: u128) {
    for (x, y) in pairs(m) {
        let (a, b, mut place) = (form(r, x), form(r, y), form(r, y));
        tried(of, "residue", || r.residue(a));
        tried(of, "is_zero", || r.is_zero(&a));
        tried(of, "add", || r.add(&a, &b));
        tried(of, "add_in_place", || r.add_in_place(&mut place, &b));
        tried(of, "dbl", || r.dbl(a));
        tried(of, "mul", || r.mul(&a, &b));
        tried(of, "mul_in_place", || r.mul_in_place(&mut place, &b));
        tried(of, "sqr", || r.sqr(a));
        tried(of, "pow", || r.pow(a, &T::word(13)));
    }
}

fn powers<T: Word + SecretWord, R: Reducer<T>>(of: &str, r: &R, m: u128) {
    for (x, y) in pairs(m) {
        let (a, exp) = (form(r, x), secret(T::word(y)));
        tried(of, "pow_secret", || pow_secret(r, a, &exp, T::bits()));
    }
}

fn inverses<T: Word + SecretWord, R: Reducer<T>>(of: &str, r: &R, m: u128) {
    for (x, _) in pairs(m).into_iter().filter(|_| m % 2 == 1) {
        let a = form(r, x);
        told(of, "inv_secret", || inv_secret(r, a));
    }
}

fn checks<T: Word, R: Reducer<T>>(of: &str, r: &R, m: u128) {
    for (x, _) in pairs(m) {
        let a = form(r, x);
        tried(of, "check", || r.check(&a));
    }
}

fn differences<T: Word, R: Reducer<T>>(of: &str, r: &R, m: u128) {
    for (x, y) in pairs(m) {
        let (a, b, c, mut place) = (form(r, x), form(r, y), form(r, x / 2), form(r, y));
        tried(of, "sub", || r.sub(&a, &b));
        tried(of, "sub_in_place", || r.sub_in_place(&mut place, &b));
        tried(of, "neg", || r.neg(a));
        tried(of, "mul_difference", || r.mul_difference(&a, &b, &c));
    }
    let (mut registers, list) = (forms(r, 4, 3), [RingCommand::Sub { dst: 2, a: 1, b: 3 }, RingCommand::Neg { dst: 0, a: 3 }]);
    tried(of, "run (differences)", || run(r, &mut registers, &list));
}

fn integers<T: Word, R: Reducer<T> + Clone>(of: &str, _r: &R, m: u128) {
    let of = &format!("ReducedInt<{of}>");
    let zero = black_box(ReducedInt::<T, R>::new(T::zero(), &T::word(m)));
    let integer = |n: u128| zero.convert(secret(T::word(n)));
    let (a, b, same, word) = (integer(m / 3), integer(m - 1), integer(m - 1), secret(T::word(m / 2)));
    tried(of, "residue", || a.residue());
    tried(of, "is_zero", || a.is_zero());
    tried(of, "convert", || zero.convert(word));
    tried(of, "add", || &a + &b);
    tried(of, "add (a word)", || &a + word);
    tried(of, "sub", || &a - &b);
    tried(of, "sub (a word)", || &a - word);
    tried(of, "neg", || -&a);
    tried(of, "mul", || &a * &b);
    tried(of, "mul (a word)", || &a * word);
    tried(of, "double", || a.clone().double());
    tried(of, "square", || a.clone().square());
    tried(of, "pow", || a.clone().pow(&T::word(13)));
    told(of, "==", || a == b);
    told(of, "== (of the same value)", || b == same);
}

fn commands<T: Word, R: Reducer<T>>(of: &str, r: &R, _m: u128) {
    let (mut registers, exp) = (forms(r, 4, 3), T::word(13));
    let list = vec![
        RingCommand::Load { dst: 0, n: secret(T::word(77)) },
        RingCommand::Add { dst: 1, a: 0, b: 2 },
        RingCommand::Mul { dst: 3, a: 2, b: 1 },
        RingCommand::Dbl { dst: 1, a: 0 },
        RingCommand::Sqr { dst: 2, a: 1 },
        RingCommand::Pow { dst: 3, a: 2, exp },
    ];
    tried(of, "run", || run(r, &mut registers, &list));
}

fn lists<T: Word, R: Reducer<T>>(of: &str, r: &R, _m: u128) {
    for n in LENGTHS {
        let (mut xs, ys, factor) = (forms(r, n, 1), forms(r, n, 9), form(r, 7));
        let mut places = forms(r, n, 5);
        tried(of, "unload_forms", || unload_forms(r, &xs, &mut places));
        tried(of, "add_lists", || add_lists(r, &mut xs, &ys));
        tried(of, "sub_lists", || sub_lists(r, &mut xs, &ys));
        tried(of, "multiply_lists", || multiply_lists(r, &mut xs, &ys));
        tried(of, "scale_list", || scale_list(r, &mut xs, &factor));
    }
}

fn dot_products<T: Word, R: Reducer<T>>(of: &str, r: &R, m: u128) {
    for n in LENGTHS {
        let (xs, ys, greatest) = (forms(r, n, 1), forms(r, n, 9), vec![form(r, m - 1); n]);
        tried(of, "dot_product", || dot_product(r, &xs, &ys));
        tried(of, "dot_product", || dot_product(r, &greatest, &greatest));
    }
}

fn transforms<T: Word, R: Reducer<T>>(of: &str, r: &R, _m: u128) {
    for (n, root) in POWERS.into_iter().filter_map(|n| Some((n, find_root(r, n)?))) {
        let (mut xs, mut ys, message) = (forms(r, n, 1), forms(r, n, 5), forms(r, n / 2, 1));
        tried(of, "ntt", || ntt(r, &mut xs, &root));
        tried(of, "intt", || intt(r, &mut xs, &root));
        tried(of, "convolve", || convolve(r, &mut xs, &mut ys, &root));
        tried(of, "encode_by_transform", || encode_by_transform(r, &root, &message, &mut xs));
    }
}

fn points<T: Word, R: Reducer<T>>(r: &R) -> Option<Vec<T>> {
    let points: Vec<T> = (1..=5).map(|it| r.transform(T::word(it))).collect();
    Some(points).filter(|it| points_fit(r, it))
}

fn codes<T: Word, R: Reducer<T>>(of: &str, r: &R, _m: u128) {
    let points = match points(r) {
        Some(points) => points,
        None => return,
    };
    let (message, mut word) = (forms(r, 3, 2), forms(r, 5, 1));
    tried(of, "evaluate", || evaluate(r, &message, &points[1]));
    tried(of, "encode", || encode(r, &points, &message, &mut word));
    let (many, mut longer): (Vec<T>, _) = ((1..=11).map(|it| r.transform(T::word(it))).collect(), forms(r, 11, 1));
    tried(of, "encode (at eleven points)", || encode(r, &many, &message, &mut longer));
    tried(of, "share", || share(r, &points, &message, &mut word));
    let (mut rows, mut scratch) = ([T::zero(); 6], [T::zero(); 6]);
    let code = PreparedCode::new(r, &points[..3], &points[3..], &mut rows, &mut scratch).unwrap();
    let (known, others) = word.split_at_mut(3);
    tried(of, "PreparedCode::extend", || code.extend(known, others));
}

fn restored<T: Word, R: Reducer<T>>(of: &str, r: &R, _m: u128) {
    let points = match points(r) {
        Some(points) => points,
        None => return,
    };
    let (symbols, places, mut scratch, mut message) = (forms(r, 3, 2), [3, 0, 4], [T::zero(); 6], [T::zero(); 3]);
    let (chosen, weights) = scratch.split_at_mut(3);
    tried(of, "restore", || restore(r, &points, &places, &symbols, chosen, weights, &mut message));
    tried(of, "recover", || recover(r, &points, &places, &symbols, chosen, weights, &mut message));
}

fn planned<T: Word + PlainWord>(of: &str, m: u128) {
    let modulus = black_box(PlannedModulus::<T>::new(T::word(m)));
    let (x, y, factor) = (secret(T::word(m / 2)), secret(T::word(m / 3)), secret(modulus.factor(T::word(m / 7))));
    tried(of, "factor", || modulus.factor(y));
    tried(of, "times", || modulus.times(x, &factor));
    tried(of, "times_base", || modulus.times_base(&factor));
    tried(of, "product", || modulus.product(x, &factor));
    tried(of, "product_sum", || modulus.product_sum(x, y, y, x));
    tried(of, "residue", || modulus.residue(y));
    tried(of, "multiply", || modulus.multiply(x, y));
}

/// How many jumps on entries are accepted in n entries' stages, in those back with the product by a factor, and in a product
/// of two lists. Where words have more than 32 bits, loops test an entry against a bound that is proved to hold: so the
/// jump always goes the same way.
fn tests<T: Word>(n: usize) -> (usize, usize, usize) {
    let stages = n.trailing_zeros() as usize;
    let (there, apart) = (stages % 2 * (n / 2) + stages / 2 * (n / 4), stages % 2 == 1 || n == 4);
    let back = there + if apart { n } else { 0 };
    if T::bits() > 32 { (there, back, there + there + n + back) } else { (0, 0, 0) }
}

fn plans<T: Word + PlainWord>(of: &str, m: u128) {
    let modulus = black_box(PlannedModulus::<T>::new(T::word(m)));
    for (n, root) in POWERS.into_iter().filter_map(|n| Some((n, find_root(&Vanilla::new(&T::word(m)), n)?))) {
        let mut table = vec![modulus.factor(T::one()); n / 2];
        let plan = Plan::<T, Factor<T>>::new(&modulus, root, &mut table).unwrap();
        let listed = |from: u128, n: usize| -> Vec<T> { (from..).take(n).map(|it| secret(T::word(it * it % m))).collect() };
        let (mut xs, mut ys, message) = (listed(3, n), listed(7, n), listed(2, n / 2));
        let (there, back, product) = tests::<T>(n);
        accepted(there, of, "transform", || plan.transform(&mut xs));
        accepted(back, of, "inverse", || plan.inverse(&mut xs));
        accepted(there, of, "split", || plan.split(&mut xs, 0, 1));
        accepted(back, of, "join", || plan.join(&mut xs, 0, 1));
        accepted(product, of, "convolve", || plan.convolve(&mut xs, &mut ys));
        accepted(there, of, "encode_by_plan", || encode_by_plan(&plan, &message, &mut xs));
    }
}

macro_rules! lattice_ring {
    ($name:ident, $m:expr) => {
        let (ring, of) = (black_box($name::Ring::new()), stringify!($name));
        let listed = |step: u32| -> Box<[u32; 256]> { Box::new(std::array::from_fn(|i| secret(i as u32 * step % $m))) };
        let (mut xs, mut ys) = (listed(9973), listed(77));
        tried(of, "ntt", || ring.ntt(&mut xs));
        tried(of, "inverse", || ring.inverse(&mut xs));
        tried(of, "multiply", || ring.multiply(&mut xs, &ys));
        tried(of, "product", || ring.product(&mut xs, &mut ys));
    };
}

macro_rules! reducers {
    ($($word:ty, $reducer:ty: $($m:expr),+; $($group:ident)+;)*) => {$(
        for m in [$($m),+] {
            let r = black_box(Box::new(<$reducer as Reducer<$word>>::new(&<$word>::word(m))));
            $($group::<$word, $reducer>(stringify!($reducer), &r, m);)+
        }
    )*};
}

fn controls() {
    let (table, a, b) = (black_box([7u64; 256]), secret(5u64), secret(3u64));
    tried("control", "jump", || if a > 70 { unsafe { reports() } } else { 7 });
    tried("control", "index", || table[a as usize % 256]);
    tried("control", "quotient of 8 bits", || black_box(100u8) / (a as u8 | 1));
    tried("control", "remainder of 32 bits", || a as u32 % black_box(1000));
    tried("control", "quotient of 64 bits", || black_box(1000) / (a | 1));
    tried("control", "remainder of 128 bits", || (a as u128) << 60 % (b as u128 | 1));
}

#[no_mangle]
pub extern "C" fn calls() {
    controls();
    reducers! {
        u8, Montgomery<u8>: 1, 2, 97, 120, 251, 254; words word_lists sums powers inverses checks differences integers commands lists dot_products codes;
        u16, Montgomery<u16>: 3329, 40000, 65521; words word_lists sums powers inverses checks differences;
        u32, Montgomery<u32>: 8380417, 998244353, 4294967291, 4294967290; words word_lists sums powers inverses checks differences integers lists dot_products codes restored;
        u64, Montgomery<u64>: 97, 998244353, 1 << 40, 0xffff_ffff_ffff_ffc5, 0xffff_ffff_ffff_fffe;
            words word_lists sums powers inverses checks differences integers commands lists dot_products transforms codes restored;
        usize, Montgomery<usize>: 998244353, 0xffff_ffff_ffff_ffc5; words sums powers inverses checks differences;
        u8, PreMulInv2by1<u8>: 1, 2, 97, 251; words sums powers inverses differences dot_products;
        u16, PreMulInv2by1<u16>: 3329, 40000, 65521; words sums powers inverses differences dot_products;
        u32, PreMulInv2by1<u32>: 8380417, 998244353, 4294967291; words sums powers inverses differences dot_products;
        u64, PreMulInv2by1<u64>: 97, 998244353, 1 << 40, 0xffff_ffff_ffff_ffc5; words sums powers inverses differences integers dot_products;
        u32, FixedMersenne32<31, 1>: (1 << 31) - 1; words sums powers inverses checks differences;
        u64, FixedMersenne64<61, 1>: (1 << 61) - 1; words word_lists sums powers inverses checks differences integers commands lists dot_products transforms codes restored;
        u64, FixedMersenne64<57, 13>: (1 << 57) - 13; words sums powers inverses checks differences;
        u64, FixedMersenne64<64, 59>: (1 << 64) - 59; sums powers checks differences;
        u32, FixedTrinomialSolinas32<32, 20, 1>: (1 << 32) - (1 << 20) + 1; words sums powers inverses checks differences;
        u64, FixedTrinomialSolinas64<64, 32, 1>: 0xffff_ffff_0000_0001; sums powers checks differences lists dot_products transforms;
        u32, FixedProth32<27, 15>: (15 << 27) + 1; words sums powers inverses checks differences;
        u64, FixedProth64<57, 29>: (29 << 57) + 1; words word_lists sums powers inverses checks differences commands lists dot_products transforms codes restored;
        u32, FixedMontgomery32<8380417>: 8380417; words word_lists sums powers inverses checks differences commands lists dot_products transforms codes restored;
        u64, FixedMontgomery64<0xffff_ffff_ffff_ffc5>: 0xffff_ffff_ffff_ffc5; words sums powers inverses checks differences;
    }
    planned::<u32>("PlannedModulus<u32>", 998244353);
    planned::<u64>("PlannedModulus<u64>", 998244353);
    plans::<u16>("Plan<u16>", 12289);
    plans::<u32>("Plan<u32>", 998244353);
    plans::<u64>("Plan<u64>", 998244353);
    plans::<u64>("Plan<u64>", (29 << 57) + 1);
    lattice_ring!(ml_kem, 3329);
    lattice_ring!(ml_dsa, 8380417);
    #[cfg(without_cmov_conversion)]
    reducers! {
        u8, PreMulInv2by1<u8>: 97, 251; word_lists commands lists transforms codes restored;
        u16, PreMulInv2by1<u16>: 3329, 65521; word_lists lists;
        u32, PreMulInv2by1<u32>: 998244353, 4294967291; word_lists commands lists transforms codes restored;
        u64, PreMulInv2by1<u64>: 97, 998244353, 0xffff_ffff_0000_0001; word_lists commands lists transforms codes restored;
        u64, FixedTrinomialSolinas64<64, 32, 1>: 0xffff_ffff_0000_0001; codes;
    }
}
