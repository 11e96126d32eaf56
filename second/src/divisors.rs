//! Divisors and the division count, in 128 bits.

/// The greatest common divisor by halving and subtracting (Stein), without a single remainder.
pub fn greatest_common_divisor(mut a: u128, mut b: u128) -> u128 {
    if a == 0 {
        return b;
    }
    if b == 0 {
        return a;
    }
    let twos = (a | b).trailing_zeros();
    a >>= a.trailing_zeros();
    while b != 0 {
        b >>= b.trailing_zeros();
        if a > b {
            std::mem::swap(&mut a, &mut b);
        }
        b -= a;
    }
    a << twos
}

/// The paper's division count: the remainders taken, larger number first, until one is zero.
pub fn division_count(a: u128, b: u128) -> u128 {
    let mut pair = [a.max(b), a.min(b)];
    let mut taken = 0;
    while pair[1] != 0 {
        pair = [pair[1], pair[0] - pair[0] / pair[1] * pair[1]];
        taken += 1;
    }
    taken
}
