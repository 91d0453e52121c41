//! Tests of the inside: fields, generators, and words whose nearest longer code
//! word has something in the omitted front. The public functions are tested in
//! the folder `tests`.

use crate::exponents::Exponents;
use crate::field::{Field, FieldA, FieldB, FieldC};
use crate::reed_solomon::{Code, G709, OUTER, PARITY};
use crate::{inner, poly, Changes};
use cases::damage::{symbol_error, wrong_symbols};
use cases::random::Random;

/// The product by doubling and adding, with the whole field polynomial.
fn slow_product(x: u32, y: u32, polynomial: u32, size: u32) -> u32 {
    let (mut sum, mut doubled, mut left) = (0, x, y);
    while left > 0 {
        if left % 2 == 1 {
            sum ^= doubled;
        }
        doubled *= 2;
        if doubled >= size {
            doubled ^= polynomial;
        }
        left /= 2;
    }
    sum
}

fn test_field<F: Field>(polynomial: u32, size: u32) {
    for x in 0..size {
        for y in 0..size {
            assert_eq!(F::multiply(x, y), slow_product(x, y, polynomial, size));
        }
    }
    for x in 1..size {
        let inverse = F::inverse(x);
        assert!(inverse < size);
        assert_eq!(slow_product(x, inverse, polynomial, size), 1);
    }
    for n in 0..=15 {
        for x in 0..size {
            assert_eq!(F::times_power(x, n), F::multiply(x, F::alpha(n as usize)));
        }
    }
}

/// The powers of a run through every non-zero element once, and `alpha` gives
/// them.
fn test_powers<F: Field>(polynomial: u32, size: u32) {
    let mut seen = vec![false; size as usize];
    let mut power = 1;
    for n in 0..F::ORDER {
        assert_eq!(F::alpha(n), power);
        assert!(power != 0 && !seen[power as usize]);
        seen[power as usize] = true;
        power = slow_product(power, 2, polynomial, size);
    }
    assert_eq!(power, 1);
    assert_eq!(F::ORDER, size as usize - 1);
}

#[test]
fn field_products_inverses_and_powers() {
    test_field::<FieldA>(0b100_0000_1001, 1024);
    test_field::<FieldB>(0b1000_0000_0101, 2048);
    test_field::<FieldC>(0b1_0001_1101, 256);
    test_powers::<FieldA>(0b100_0000_1001, 1024);
    test_powers::<FieldB>(0b1000_0000_0101, 2048);
    test_powers::<FieldC>(0b1_0001_1101, 256);
}

/// Every polynomial of degree up to 30 is reduced: it is enough to look at each
/// power, since reduction is linear, and at the bound of the result.
fn test_reduction<F: Field>() {
    for n in 0..=30 {
        assert_eq!(F::reduce(1 << n), F::alpha(n));
    }
    let mut random = Random(1);
    for _ in 0..10_000 {
        let (p, q) = (random.next() as u32 >> 1, random.next() as u32 >> 1);
        assert_eq!(F::reduce(p) ^ F::reduce(q), F::reduce(p ^ q));
        assert!(F::reduce(p) as usize <= F::ORDER);
    }
}

#[test]
fn reduction_reaches_degree_30() {
    test_reduction::<FieldA>();
    test_reduction::<FieldB>();
    test_reduction::<FieldC>();
    assert_eq!([FieldA::FOLDS, FieldB::FOLDS, FieldC::FOLDS], [3, 3, 6]);
}

/// Bench rows 1 to 4.
#[test]
fn examples_of_the_fields() {
    assert_eq!(FieldA::multiply(512, 2), 9);
    assert_eq!(FieldA::multiply(516, 2), 1);
    assert_eq!(FieldB::multiply(1024, 2), 5);
    assert_eq!(FieldB::multiply(1026, 2), 1);
}

/// z^8 is z^4 + z^3 + z^2 + 1; z^7 + z^3 + z^2 + z is 1 over z.
#[test]
fn examples_of_the_field_of_rows() {
    assert_eq!(FieldC::multiply(128, 2), 29);
    assert_eq!(FieldC::multiply(142, 2), 1);
    assert_eq!((FieldC::alpha(8), FieldC::alpha(254), FieldC::alpha(255)), (29, 142, 1));
}

/// All pairs of elements, zero included. The sums of exponents reach both sides
/// of the order, and the greatest is 2 * ORDER - 2: a greater one has no place in
/// `reached`.
fn test_products_by_exponents<F: Field>(size: u32) {
    let tables = Exponents::<F>::new();
    let mut reached = vec![false; 2 * F::ORDER - 1];
    for x in 0..size {
        for y in 0..size {
            assert_eq!(tables.product(x, y), F::multiply(x, y));
            if x != 0 && y != 0 {
                reached[tables.exponent_sum(x, y)] = true;
            }
        }
    }
    for sum in [F::ORDER - 1, F::ORDER, F::ORDER + 1, 2 * F::ORDER - 2] {
        assert!(reached[sum]);
    }
}

#[test]
fn products_by_exponents() {
    test_products_by_exponents::<FieldA>(1024);
    test_products_by_exponents::<FieldB>(2048);
    test_products_by_exponents::<FieldC>(256);
}

/// Each non-zero element stands once among the powers, at its exponent.
fn test_tables<F: Field>(size: u32) {
    let tables = Exponents::<F>::new();
    assert_eq!((tables.powers.len(), tables.exponents.len()), (size as usize - 1, size as usize));
    let mut sorted = tables.powers.clone();
    sorted.sort_unstable();
    assert!(sorted.into_iter().eq(1..size));
    for (i, &power) in tables.powers.iter().enumerate() {
        assert_eq!(power, F::alpha(i));
        assert_eq!(tables.exponents[power as usize], i);
    }
    for x in 1..size {
        assert_eq!(tables.powers[tables.exponents[x as usize]], x);
    }
}

#[test]
fn powers_and_exponents_are_inverse() {
    test_tables::<FieldA>(1024);
    test_tables::<FieldB>(2048);
    test_tables::<FieldC>(256);
}

fn value_at(bits: u128, point: u32) -> u32 {
    let step = |value, i: u32| FieldB::multiply(value, point) ^ ((bits >> i) & 1) as u32;
    (0..128).rev().fold(0, step)
}

#[test]
fn least_polynomials() {
    assert_eq!(inner::least_polynomial(1), 0b1000_0000_0101);
    assert_eq!(inner::least_polynomial(3), (1 << 11) | (1 << 8) | (1 << 5) | (1 << 2) | 1);
    let mut seen = Vec::new();
    for j in (1..16).step_by(2) {
        let least = inner::least_polynomial(j);
        assert_eq!(128 - least.leading_zeros(), 12);
        assert_eq!(value_at(least, FieldB::alpha(j)), 0);
        assert!(!seen.contains(&least));
        seen.push(least);
    }
}

/// The inner generator has degree 88 and the roots that it has to have: the
/// conjugates of a to a^15, and no others.
#[test]
fn inner_generator_roots() {
    let generator = inner::generator();
    assert_eq!(128 - generator.leading_zeros(), 89);
    assert_eq!(generator & 1, 1);
    let mut expected: Vec<usize> = (1..16).step_by(2).flat_map(|j| (0..11).map(move |i| (j << i) % 2047)).collect();
    expected.sort_unstable();
    let found: Vec<usize> = (0..2047).filter(|&n| value_at(generator, FieldB::alpha(n)) == 0).collect();
    assert_eq!(found, expected);
    assert!((1..=16).all(|n| found.contains(&n)));
}

/// The code word of the last data bit is the generator.
#[test]
fn last_data_bit_gives_the_inner_generator() {
    let mut data = vec![false; inner::DATA];
    data[inner::DATA - 1] = true;
    let parity = inner::parity(&data).into_iter();
    let packed = parity.fold(1, |packed, bit| (packed << 1) | u128::from(bit));
    assert_eq!(packed, inner::generator());
}

/// A Reed-Solomon generator, read off as the parity of the data 1, has the roots
/// a^0 to a^15 and no others.
fn test_generator<F: Field>(code: &Code<F>) {
    let mut coefficients: Vec<u32> = code.parity(&[1]).map(u32::from).to_vec();
    coefficients.reverse();
    coefficients.push(1);
    for n in 0..F::ORDER {
        let value = poly::evaluate::<F>(&coefficients, F::alpha(n));
        assert_eq!(value == 0, n < 16);
    }
}

#[test]
fn reed_solomon_generator_roots() {
    test_generator(&OUTER);
    test_generator(&G709);
}

#[test]
fn division_of_polynomials() {
    let mut random = Random(2);
    for _ in 0..2_000 {
        let (n, m) = (1 + random.below(17), 1 + random.below(17));
        let mut p: Vec<u32> = random.symbols(n.max(m)).into_iter().map(u32::from).collect();
        let mut q: Vec<u32> = random.symbols(n.min(m)).into_iter().map(u32::from).collect();
        *p.last_mut().unwrap() |= 1;
        *q.last_mut().unwrap() |= 1;
        let (quotient, rest) = poly::divide::<FieldA>(&p, &q);
        assert!(rest.len() < q.len());
        assert_eq!(poly::add(&poly::multiply::<FieldA>(&quotient, &q), &rest), p);
    }
}

#[test]
fn derivative_of_a_product() {
    let mut random = Random(3);
    for _ in 0..200 {
        let p: Vec<u32> = poly::trim(random.symbols(6).into_iter().map(u32::from).collect());
        let q: Vec<u32> = poly::trim(random.symbols(5).into_iter().map(u32::from).collect());
        let left = poly::derivative(&poly::multiply::<FieldA>(&p, &q));
        let right = poly::add(&poly::multiply::<FieldA>(&poly::derivative(&p), &q), &poly::multiply::<FieldA>(&p, &poly::derivative(&q)));
        assert_eq!(left, right);
    }
}

/// The search finds the places of a locator that was made from them, at both
/// ends of the word as well, and not those of the omitted front.
#[test]
fn search_finds_places() {
    fn test<F: Field>(random: &mut Random, length: usize) {
        for count in 0..=8 {
            let mut places = random.choose(count, length);
            if count > 1 {
                places = [&[0, length - 1], &random.choose(count - 2, length - 2)[..]].concat();
                places[2..].iter_mut().for_each(|place| *place += 1);
            }
            let powers = places.iter().map(|place| length - 1 - place);
            let points = powers.map(|power| F::inverse(F::alpha(power)));
            let points: Vec<u32> = points.collect();
            let locator = poly::from_roots::<F>(points.iter().copied());
            let found = poly::chien_search::<F>(&locator, length);
            let mut expected: Vec<_> = places.into_iter().zip(points).collect();
            expected.sort_unstable();
            assert_eq!(found.iter().map(|r| (r.place, r.point)).collect::<Vec<_>>(), expected);
        }
        for power in length..F::ORDER {
            let root = F::inverse(F::alpha(power));
            let locator = poly::from_roots::<F>([root].into_iter());
            assert!(poly::chien_search::<F>(&locator, length).is_empty());
        }
    }
    let mut random = Random(4);
    for length in [17, 18, 400, 778, 781, 1022, 1023] {
        test::<FieldA>(&mut random, length);
    }
    test::<FieldB>(&mut random, 2040);
    test::<FieldB>(&mut random, 2047);
    test::<FieldC>(&mut random, 17);
    test::<FieldC>(&mut random, 255);
}

/// Every place of an inner word is a data place or a parity place, and the two numbers add up.
#[test]
fn places_are_counted_apart() {
    let mut all = Changes::default();
    for place in 0..2040 {
        let mut one = Changes::default();
        one.add(place);
        assert_eq!((one.data, one.parity), if place <= 1951 { (1, 0) } else { (0, 1) });
        all.add(place);
        assert_eq!(all.total() as usize, place + 1);
    }
    assert_eq!(all, Changes { data: 1952, parity: 88 });
    assert_eq!(Changes { data: u16::MAX, parity: u16::MAX }.total(), 131_070);
}

/// A code word of 2,047 places, with ones among the seven in front, is cut to
/// 2,040 places and given further errors, at most eight wrong places in all.
/// The longer code word is near enough, so no code word of 2,040 places is.
#[test]
fn inner_omitted_front_is_uncorrectable() {
    let mut random = Random(5);
    for front in 1u32..128 {
        let front_bits: Vec<bool> = (0..7).map(|i| (front >> i) & 1 == 1).collect();
        let data: Vec<bool> = (0..inner::DATA).map(|_| random.chance(2)).collect();
        let all = front_bits.iter().chain(&data).copied();
        let rest = inner::remainder(all.chain([false; inner::PARITY]));
        let parity = (0..inner::PARITY).rev().map(|i| (rest >> i) & 1 == 1);
        let word: Vec<bool> = data.into_iter().chain(parity).collect();
        let longer = front_bits.iter().chain(&word).copied();
        assert_eq!(inner::remainder(longer), 0);
        for errors in 0..=8 - front.count_ones() as usize {
            let mut received = word.clone();
            for place in random.choose(errors, inner::LENGTH) {
                received[place] = !received[place];
            }
            assert_eq!(inner::correct(&received), None);
        }
    }
}

/// Outer words of several lengths, cut from longer code words with something in the omitted front, have no code word near either.
#[test]
fn outer_omitted_front_is_uncorrectable() {
    let mut random = Random(6);
    for (length, longer) in [(17, 18), (17, 1023), (100, 108), (778, 781), (781, 1023), (1022, 1023)] {
        for wrong_in_front in 1..=8.min(longer - length) {
            let mut data = random.symbols(longer - PARITY);
            data[..longer - length].fill(0);
            for place in random.choose(wrong_in_front, longer - length) {
                data[place] = symbol_error(&mut random);
            }
            let parity = OUTER.parity(&data);
            let full = [&data[..], &parity].concat();
            assert!(OUTER.is_code_word(&full));
            for errors in 0..=8 - wrong_in_front {
                let mut received = full[longer - length..].to_vec();
                wrong_symbols(&mut random, &mut received, errors);
                assert_eq!(OUTER.correct(&received), None);
            }
        }
    }
}
