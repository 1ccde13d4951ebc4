// The operators of bench on plain u128, with the same pairs of numbers: `four_state ROUNDS`.
use std::hint::black_box;
use std::time::Instant;

fn time(name: &str, width: u32, rounds: u64, op: impl Fn(u128, u128) -> u128) {
    let mask = u128::MAX >> (128 - width);
    let start = Instant::now();
    let mut number = 1u128;
    let mut sum = 0u128;
    for _ in 0..rounds {
        number = number.wrapping_mul(0x5851_f42d_4c95_7f2d_1405_7b7e_f767_814f).wrapping_add(1);
        sum = sum.wrapping_add(op(number & mask, (number >> 64 | 1) & mask) & mask);
    }
    println!("{name} {width} {} {sum}", start.elapsed().as_nanos());
}

fn main() {
    let rounds = std::env::args().nth(1).unwrap().parse().unwrap();
    for width in [8, 64, 128] {
        let w = black_box(width);
        time("+", w, rounds, |a, b| a.wrapping_add(b));
        time("-", w, rounds, |a, b| a.wrapping_sub(b));
        time("*", w, rounds, |a, b| a.wrapping_mul(b));
        time("/", w, rounds, |a, b| a / b);
        time("&", w, rounds, |a, b| a & b);
        time("^", w, rounds, |a, b| a ^ b);
        time("<<", w, rounds, |a, b| if b < 128 { a << b } else { 0 });
        time(">>", w, rounds, |a, b| if b < 128 { a >> b } else { 0 });
        time("<", w, rounds, |a, b| (a < b) as u128);
        time("==", w, rounds, |a, b| (a == b) as u128);
        time("===", w, rounds, |a, b| (a == b) as u128);
        time("&&", w, rounds, |a, b| (a != 0 && b != 0) as u128);
    }
}
