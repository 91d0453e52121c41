//! 4,096 dependent products in each field: the proved kernel of crates/exports against the same code in Rust, in one run.
//! Before it times them, it compares both with the product by shift and add.
use std::hint::black_box;
use std::time::Instant;

extern "C" {
    fn exports_products_a(x: u16, y: u16, n: u32) -> u16;
    fn exports_products_b(x: u16, y: u16, n: u32) -> u16;
    fn exports_products_c(x: u16, y: u16, n: u32) -> u16;
}

fn proved_products_a(x: u16, y: u16, n: u32) -> u16 {
    unsafe { exports_products_a(x, y, n) }
}

fn proved_products_b(x: u16, y: u16, n: u32) -> u16 {
    unsafe { exports_products_b(x, y, n) }
}

fn proved_products_c(x: u16, y: u16, n: u32) -> u16 {
    unsafe { exports_products_c(x, y, n) }
}

const PRODUCTS: u32 = 4096;
const ROUNDS: usize = 1001;

const fn doubled(degree: u32, polynomial: u32, x: u32) -> u32 {
    let y = 2 * x;
    if y >> degree == 1 { y ^ polynomial } else { y }
}

const fn powers<const N: usize>(degree: u32, polynomial: u32) -> [u16; N] {
    let mut table = [0; N];
    let mut x = 1;
    let mut i = 0;
    while i < N {
        table[i] = x as u16;
        x = doubled(degree, polynomial, x);
        i += 1;
    }
    table
}

const fn exponents<const N: usize, const Q: usize>(exp: [u16; N]) -> [u16; Q] {
    let mut table = [0; Q];
    let mut i = 0;
    while i < N {
        table[exp[i] as usize] = i as u16;
        i += 1;
    }
    table
}

const EXP_A: [u16; 1023] = powers(10, 1033);
const LOG_A: [u16; 1024] = exponents(EXP_A);
const EXP_B: [u16; 2047] = powers(11, 2053);
const LOG_B: [u16; 2048] = exponents(EXP_B);
const EXP_C: [u16; 255] = powers(8, 285);
const LOG_C: [u16; 256] = exponents(EXP_C);

fn place(n: usize, x: u16) -> usize {
    x as usize & (n - 1)
}

fn product(exp: &[u16], log: &[u16], x: u16, y: u16) -> u16 {
    let n = log.len();
    if n == 0 {
        return 0;
    }
    let a = place(n, x);
    if a == 0 {
        return 0;
    }
    let b = place(n, y);
    if b == 0 {
        return 0;
    }
    let i = log[a] as usize + log[b] as usize;
    let k = if i < exp.len() { i } else { i - exp.len() };
    if k < exp.len() { exp[k] } else { 0 }
}

fn products(exp: &[u16], log: &[u16], x: u16, y: u16, n: u32) -> u16 {
    let mut v = x;
    let mut i = 0;
    while i < n {
        v = product(exp, log, v, y);
        i += 1;
    }
    v
}

#[inline(never)]
fn rust_products_a(x: u16, y: u16, n: u32) -> u16 {
    let exp = EXP_A;
    let log = LOG_A;
    products(&exp, &log, x, y, n)
}

#[inline(never)]
fn rust_products_b(x: u16, y: u16, n: u32) -> u16 {
    let exp = EXP_B;
    let log = LOG_B;
    products(&exp, &log, x, y, n)
}

#[inline(never)]
fn rust_products_c(x: u16, y: u16, n: u32) -> u16 {
    let exp = EXP_C;
    let log = LOG_C;
    products(&exp, &log, x, y, n)
}

fn by_shift_and_add(degree: u32, polynomial: u32, x: u16, y: u16) -> u16 {
    let mut term = u32::from(x) % (1 << degree);
    let mut sum = 0;
    for i in 0..degree {
        if y >> i & 1 == 1 {
            sum ^= term;
        }
        term = doubled(degree, polynomial, term);
    }
    sum as u16
}

type Products = fn(u16, u16, u32) -> u16;

/// The median over the rounds of the nanoseconds that a call takes, for both functions, turn by turn.
fn medians(proved: Products, rust: Products, products: u32, calls: u32) -> (f64, f64) {
    let time = |f: Products, round: usize| {
        let (x, y) = (1 + (round * 7 % 1000) as u16, 3 + (round * 11 % 1000) as u16);
        let start = Instant::now();
        for _ in 0..calls {
            black_box(f(black_box(x), black_box(y), black_box(products)));
        }
        start.elapsed().as_nanos() as f64 / f64::from(calls)
    };
    let median = |mut times: Vec<f64>| {
        times.sort_by(f64::total_cmp);
        times[times.len() / 2]
    };
    let (ours, theirs) = (0..ROUNDS).map(|round| (time(proved, round), time(rust, round))).unzip();
    (median(ours), median(theirs))
}

fn compare(name: &str, degree: u32, polynomial: u32, proved: Products, rust: Products) {
    for round in 0..4096u32 {
        let x = (round * 40503 >> 4) as u16;
        let y = (round * 52711 >> 2) as u16;
        let expected = by_shift_and_add(degree, polynomial, x, y);
        assert_eq!(proved(x, y, 1), expected, "{name}: {x} times {y}");
        assert_eq!(rust(x, y, 1), expected, "{name}: {x} times {y}");
        assert_eq!(proved(x, y, 99), rust(x, y, 99), "{name}: {x} times {y}, 99 times over");
    }
    let (ours, theirs) = medians(proved, rust, PRODUCTS, 1);
    let each = f64::from(PRODUCTS);
    println!(
        "{name}: {PRODUCTS} dependent products: proved {ours:.0} ns ({:.2} each), Rust {theirs:.0} ns ({:.2} each), ratio {:.2}",
        ours / each,
        theirs / each,
        theirs / ours
    );
    let (ours, theirs) = medians(proved, rust, 0, 1000);
    println!("{name}: no product, the tables bound: proved {ours:.1} ns, Rust {theirs:.1} ns");
}

fn main() {
    println!("medians of {ROUNDS} rounds; the ratio is theirs to ours, above 1 where the proved code is faster");
    compare("field A", 10, 1033, proved_products_a, rust_products_a);
    compare("field B", 11, 2053, proved_products_b, rust_products_b);
    compare("field C", 8, 285, proved_products_c, rust_products_c);
}
