//! Numbers for made-up cases, the same in each run.

/// Numbers of no order, from a row that begins with this one, each below a bound.
pub fn numbers_from(mut number: u64) -> impl FnMut(usize) -> usize {
    move |bound| {
        number = number.wrapping_mul(6_364_136_223_846_793_005).wrapping_add(1_442_695_040_888_963_407);
        (number >> 33) as usize % bound
    }
}
