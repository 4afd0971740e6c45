//! Functions of which wrong Rust has passed as equal, or could pass. `rt lib` proves them as
//! `src/attacks.rt` of a crate, with `#![tactic(auto)]` below these lines.

pub fn constant_index(a: &[u32; 8]) -> u32 { a[1] }
pub fn of_a_value(a: [u32; 8]) -> u32 { a[1] }
pub fn of_a_slice(a: &[u16]) -> u16 { if a.len() > 6 { a[2] } else { 0 } }
pub fn stored(a: &mut [u32; 8], v: u32) { a[1] = v; }

pub fn after_a_store(v: u32, i: usize) -> u32 {
    let mut a = [v; 8];
    if i < 8 {
        a[i] = 9;
    }
    a[1]
}

pub fn in_a_pattern(a: &[u16; 8]) -> u16 {
    let [_, b, ..] = a;
    *b
}

pub fn named_index(a: &[u64; 16]) -> u64 {
    const AT: usize = 1;
    a[AT].wrapping_add(a[0])
}

pub fn of_arrays(a: &[[u8; 2]; 8]) -> u8 { a[1][1] }
pub fn between_fields(a: &[(u8, u16, u8); 8]) -> u8 { a[2].0 }

pub fn of_options(rows: &[Option<()>; 8], i: usize) -> bool {
    if i < 4 { rows[i * 2].is_some() } else { false }
}

pub fn of_pairs(rows: &[(u8, ()); 8], i: usize) -> u8 { if i < 4 { rows[i * 2].0 } else { 0 } }

pub fn lent_in_a_loop(x: u32, y: u32, n: u32) -> u32 {
    let a = x;
    let b = y;
    let mut r = &a;
    for i in 0..n {
        if i == 3 {
            r = &b;
        }
    }
    *r
}

pub fn slice_in_a_loop(x: [u32; 4], y: [u32; 4], n: u32) -> usize {
    let a = x;
    let b = y;
    let mut r: &[u32] = &a;
    for i in 0..n {
        if i == 3 {
            r = &b;
        }
    }
    if let [f, ..] = r { *f as usize } else { 0 }
}

pub fn swapped_in_a_loop(x: u32, y: u32, n: u32) -> u32 {
    let a = x;
    let b = y;
    let mut p = &a;
    let mut q = &b;
    for _ in 0..n {
        let t = p;
        p = q;
        q = t;
    }
    *p
}

pub fn picked(i: usize) -> u32 {
    let mut a: u32 = 1;
    let mut b: u32 = 2;
    if i < 2 {
        let rs = [&mut a, &mut b];
        *rs[i] = 9;
    }
    a
}

fn change(rs: &mut [&mut u32; 2]) { *rs[0] = 9; }

pub fn picked_and_lent(i: usize) -> u32 {
    let mut a: u32 = 1;
    let mut b: u32 = 2;
    let mut c: u32 = 3;
    let mut rs = [&mut a, &mut b];
    if i < 2 {
        rs[i] = &mut c;
        change(&mut rs);
    }
    a
}

pub fn joined_for_a_turn(n: u32) -> u32 {
    let mut pair = (0u32, 7u32);
    let mut seen: u32 = 0;
    for i in 5..n {
        if i < 6 {
            pair.0 = pair.0.wrapping_add(1);
        }
        seen = seen.wrapping_add(1);
    }
    pair.0.wrapping_add(seen)
}

pub struct Text(u32);

impl Text {
    pub fn as_slice(&mut self) -> u32 {
        self.0 = 0;
        0
    }
}

pub fn call_left_out(text: &mut Text) -> u32 {
    let _ = text.as_slice();
    5
}

pub trait Kind {
    type Of;

    fn number() -> u32;
}

pub struct A;
pub struct B;

impl Kind for A {
    type Of = B;

    fn number() -> u32 { 1 }
}

impl Kind for B {
    type Of = B;

    fn number() -> u32 { 2 }
}

fn number_of<T: Kind>() -> u32 { T::number() }
pub fn of_the_associated_type() -> u32 { number_of::<A>() }

pub trait Sign: Copy {
    fn is_less(self) -> bool;
}

impl Sign for i16 {
    fn is_less(self) -> bool { self < 0 }
}

impl Sign for u16 {
    fn is_less(self) -> bool { false }
}

fn both<S: Sign, T: Sign>(a: S, b: T) -> bool { if a.is_less() { b.is_less() } else { true } }
pub fn of_other_signs(x: i16, y: u16) -> bool { both::<i16, u16>(x, y) }
pub struct Shift<const F: u32>(u32);

impl<const F: u32> Shift<F> {
    pub const AMOUNT: u32 = F;

    pub fn bits() -> u32 { F }
    pub fn of_other_parameters(&self) -> u32 { self.0 ^ F }
}

fn of_unused_parameters<S: Kind, T: Kind>() -> u32 { if S::number() < 3 { T::number() } else { 0 } }

pub trait Level {
    fn number() -> u32;
}

pub trait Outer {
    type Of: Level;
}

pub fn of_swapped_types<S: Outer, T: Outer>(_s: &S, _t: &T) -> u32 {
    if S::Of::number() < 3 { T::Of::number() } else { 0 }
}

pub struct Pair<S: Kind, T: Kind> {
    one: S,
    other: T,
}

impl<S: Kind, T: Kind> Pair<S, T> {
    pub fn of_the_first_type() -> u32 { S::number() }
}

pub fn of_pairs_of_other_signs(x: i16, y: u16, z: i16, w: u16) -> bool { (x, y) < (z, w) }

pub fn of_one_of_both(x: &mut u32, y: &mut u32, i: usize) -> u32 {
    if i < 2 {
        let rs = [&mut *x, &mut *y];
        *rs[i] = 9;
    }
    *x
}

pub fn of_two_indices(rs: &mut [&mut u32; 2], i: usize, j: usize) -> u32 {
    if i < 2 {
        if j < 2 {
            let old = *rs[j];
            *rs[i] = 9;
            return old ^ *rs[j];
        }
    }
    0
}

impl A {
    fn drop(x: u32) -> u32 { x & 1 }
    fn number() -> u32 { 3 }
}

impl B {
    fn drop(x: u32) -> u32 { x & 2 }
}

pub fn of_a_common_name(x: u32) -> u32 { A::drop(x) ^ B::drop(1) }

pub trait Make<T> {
    fn make(&self) -> u32;
    fn count<K: Kind>(&self) -> u32;
}

pub fn of_another_bound<T: Make<A> + Make<B>>(x: &T) -> u32 { <T as Make<A>>::make(x) }
pub fn of_a_generic_method<T: Make<u8>>(x: &T) -> u32 { x.count::<A>() }

#[derive(Clone, Copy)]
pub enum Height {
    Low,
    Middle,
    High,
}

pub fn number_of_height(height: Height) -> u32 {
    match height {
        Height::Low => 1,
        Height::Middle => 2,
        Height::High => 3,
    }
}

pub fn middle_height() -> Height { Height::Middle }

pub struct Holder<T: Kind>(T);

impl<T: Kind> Holder<T> {
    fn of_the_other<U: Kind>() -> u32 { U::number() }
}

pub fn of_two_parameters() -> u32 { Holder::<A>::of_the_other::<A>() }

pub fn of_a_trait() -> u32 { <A as Kind>::number() }
pub fn of_the_first_trait<T: Outer + Kind>(_t: &T) -> u32 { <T as Outer>::Of::number() }

pub fn passed_function(x: Option<u32>) -> u32 { x.unwrap_or_else(number_of::<A>) }
pub fn passed_method(x: Option<u32>) -> u32 { x.unwrap_or_else(<A as Kind>::number) }
pub fn passed_of_a_number(x: Option<u32>) -> u32 { x.unwrap_or_else(Shift::<3>::bits) }
pub fn passed_of_types(x: Option<u32>) -> u32 { x.unwrap_or_else(Pair::<A, B>::of_the_first_type) }

pub fn least(x: u32, y: u32) -> u32 { x.min(y) }

#[derive(Clone, Copy)]
pub struct Two {
    one: u32,
    other: u32,
}

pub fn of_a_base(two: Two, some: &[Two], n: usize) -> Two { Two { one: 1, other: 2, ..two } }

pub fn written(one: &mut u32, other: &mut u32) {
    *one = 1;
    *other = 2;
}
