//! Crate emath's domain and refusals beside `faults`, which follows RULES 5 and 8.

use crate::faults;
use crate::probe;
use crate::tally::Tally;
use crate::values::Values;

pub fn compare(t: &mut Tally) {
    domain(t);
    refusals(t);
    bytes(t);
}

fn two(v: &mut Values) -> [f32; 2] {
    v.pair().into()
}

fn domain(t: &mut Tally) {
    let one = Values::number;
    let four = Values::rect;
    t.drawn(
        "domain::is_finite",
        100,
        one,
        |&x| probe::emath_domain_is_finite(x),
        |&x| u8::from(faults::is_finite(&[x])),
    );
    t.drawn(
        "domain::is_within",
        100,
        one,
        |&x| probe::emath_domain_is_within(x),
        |&x| u8::from(faults::is_within(&[x])),
    );
    t.drawn(
        "domain::both_finite",
        100,
        two,
        |&[x, y]| probe::emath_domain_both_finite(x, y),
        |p| u8::from(faults::is_finite(p)),
    );
    t.drawn(
        "domain::both_within",
        100,
        two,
        |&[x, y]| probe::emath_domain_both_within(x, y),
        |p| u8::from(faults::is_within(p)),
    );
    t.drawn(
        "Rect::is_finite",
        100,
        four,
        |r| probe::emath_rect_is_finite(r),
        |r| u8::from(faults::is_finite(r)),
    );
    t.drawn(
        "Rect::is_within",
        100,
        four,
        |r| probe::emath_rect_is_within(r),
        |r| u8::from(faults::is_within(r)),
    );
    t.drawn(
        "Rect::is_inside_out",
        100,
        four,
        |r| probe::emath_rect_is_inside_out(r),
        |r| u8::from(faults::is_inside_out(r)),
    );
    t.drawn(
        "Vec2::is_negative",
        100,
        two,
        |&[x, y]| probe::emath_vec2_is_negative(x, y),
        |p| u8::from(faults::is_negative(p)),
    );
}

fn refusals(t: &mut Tally) {
    let one = Values::number;
    let four = Values::rect;
    t.drawn(
        "faults::length_fault",
        100,
        one,
        |&x| probe::emath_faults_length_fault(x),
        |&x| faults::of_lengths(&[x]),
    );
    t.drawn(
        "faults::extent_fault",
        100,
        one,
        |&x| probe::emath_faults_extent_fault(x),
        |&x| faults::of_sizes(&[x]),
    );
    t.drawn(
        "faults::pair_fault",
        100,
        two,
        |&[x, y]| probe::emath_faults_pair_fault(x, y),
        |p| faults::of_lengths(p),
    );
    t.drawn(
        "faults::size_fault",
        100,
        two,
        |&[x, y]| probe::emath_faults_size_fault(x, y),
        |p| faults::of_sizes(p),
    );
    t.drawn(
        "faults::edges_fault",
        100,
        four,
        |r| probe::emath_faults_edges_fault(r),
        |r| faults::of_lengths(r),
    );
    t.drawn(
        "faults::rect_fault",
        100,
        four,
        |r| probe::emath_faults_rect_fault(r),
        faults::of_rect,
    );
}

/// Every argument there is, which for some is fewer than are drawn elsewhere.
fn bytes(t: &mut Tally) {
    let all = || 0..=u8::MAX;
    let pairs = || all().flat_map(move |a| all().map(move |b| (a, b)));
    let whens = all().flat_map(|n| [(false, n), (true, n)]);
    t.each(
        "faults::number_when",
        whens,
        |&(b, n)| probe::emath_faults_number_when(b, n),
        |&(b, n)| [0, n][usize::from(b)],
    );
    t.each(
        "faults::lesser_number",
        pairs(),
        |&(a, b)| probe::emath_faults_lesser_number(a, b),
        |&(a, b)| faults::least(&[a, b]),
    );
    t.each(
        "faults::or_else",
        pairs(),
        |&(n, m)| probe::emath_faults_or_else(n, m),
        |&(n, m)| [n, m][usize::from(n == 0)],
    );
    t.each(
        "faults::outside_domain",
        all(),
        |&n| probe::emath_faults_outside_domain(n),
        |&n| faults::of_answer(n),
    );
}
