//! The check of an image: its verdict is that of reading, number and places; what it needs is known from the head; a checker with a limit.
use hypergroup::raw::{self, Answer};
use hypergroup::{Checker, Factor, Image, Refusal, Unchecked};
use std::collections::BTreeMap;
use std::sync::Arc;

const BYTE: u8 = 165;

struct Random(u64);

impl Random {
    fn below(&mut self, n: u64) -> u64 {
        self.0 = self.0.wrapping_mul(6364136223846793005).wrapping_add(1442695040888963407);
        (self.0 >> 33) % n
    }
}

/// The image with these rows, whatever they are.
fn image(n: u8, count: u16, rows: &[u16]) -> Vec<u8> {
    let mut bytes = (4 + 2 * u32::from(n) * u32::from(count)).to_be_bytes().to_vec();
    bytes.extend([1, n]);
    bytes.extend(count.to_be_bytes());
    bytes.extend(rows.iter().flat_map(|x| x.to_be_bytes()));
    bytes
}

/// One generator that turns all of them round.
fn ring(count: u16) -> Vec<u8> {
    image(1, count, &(0..count).map(|e| (e + 1) % count).collect::<Vec<_>>())
}

/// A number and places; 0 where nothing is refused.
fn numbers<T>(answer: Answer<T>) -> (u32, [u32; 3]) {
    answer.err().map_or((0, [0; 3]), |x| (x.number, x.places))
}

/// What reading says of these bytes, in buffers as long as it needs.
fn by_reading(bytes: &[u8], need: Option<usize>) -> (u32, [u32; 3]) {
    // Of a bad head no buffer is looked at.
    let (n, count) = need.map_or((0, 0), |_| (bytes[5], u16::from_be_bytes([bytes[6], bytes[7]])));
    let (mut table, mut work) = (vec![0; raw::table_need(n, count.into())], vec![0; raw::work_need(n, count.into())]);
    numbers(raw::image_read(bytes, &mut table, 0, &mut work))
}

/// Document 01's checks of the head, in its order; the bytes of work where the head is right.
fn by_the_paper(bytes: &[u8]) -> Result<usize, u32> {
    if bytes.len() < 8 || u32::from_be_bytes(bytes[..4].try_into().unwrap()) as usize + 4 != bytes.len() || bytes[4] != 1 {
        return Err(16);
    }
    let (n, count) = (usize::from(bytes[5]), usize::from(u16::from_be_bytes([bytes[6], bytes[7]])));
    match n {
        9.. => Err(1),
        _ if count == 0 || bytes.len() != 8 + 2 * n * count => Err(16),
        _ => Ok(count * (32 * n * n + 100)),
    }
}

/// All that is said of one image, by every call; the number.
fn compare(bytes: &[u8], checker: &mut Checker) -> u32 {
    let need = by_the_paper(bytes);
    let lent = need.unwrap_or(0);
    let expected = by_reading(bytes, need.ok());
    if let Err(number) = need {
        assert_eq!(expected.0, number);
    }
    // Exactly enough, and more than enough, which stays; afterwards all that was needed is zero, or nothing is touched.
    for more in [0, 7] {
        let mut work = vec![BYTE; lent + more];
        assert_eq!(numbers(raw::image_verdict(bytes, &mut work)), expected);
        let mut again = vec![BYTE; lent + more];
        assert_eq!(raw::image_check(bytes, &mut again), expected.0);
        assert_eq!(work, again);
        assert_eq!(work, [vec![0; lent], vec![BYTE; more]].concat());
    }
    // A byte less is 4, and nothing is touched; of a bad head no work is looked at.
    if lent > 0 {
        let mut work = vec![BYTE; lent - 1];
        assert_eq!(numbers(raw::image_verdict(bytes, &mut work)), (4, [0; 3]));
        assert!(work.iter().all(|&x| x == BYTE));
    }
    // What the head tells.
    let alone = need.is_ok() && bytes[5] == 0 && lent != 100;
    match raw::image_need(bytes) {
        Ok(told) => assert_eq!((Ok(told as usize), alone), (need, false)),
        refused => {
            assert!(need.is_err() || alone);
            assert_eq!(numbers(refused), expected);
        }
    }
    // The safe types.
    assert_eq!(numbers(Image::check(bytes)), expected);
    assert_eq!(numbers(Factor::from_image(bytes)), expected);
    match checker.check(bytes) {
        Ok(image) => assert_eq!((expected.0, image.bytes()), (0, bytes)),
        Err(Unchecked::Refused(refusal)) => assert_eq!((refusal.number, refusal.places), expected),
        Err(other) => panic!("{other}"),
    }
    expected.0
}

/// Images that are right, and one for each refusal that the checks have.
fn bases() -> Vec<Vec<u8>> {
    const CROSSED: [u16; 64] = [
        1, 2, 3, 4, 0, 5, 6, 7, 5, 0, 8, 9, 6, 8, 0, 10, 7, 9, 10, 0, 2, 1, 11, 12, 3, 12, 1, 13, 4, 11, 13, 1, 11, 3, 2, 14, 12, 4, 14, 2,
        13, 14, 4, 3, 8, 7, 5, 15, 9, 6, 15, 5, 10, 15, 7, 6, 15, 10, 9, 8, 14, 13, 12, 11,
    ];
    let mut all = vec![image(0, 1, &[]), image(0, 2, &[]), ring(2), ring(3), ring(40)];
    all.push(image(2, 6, &[1, 2, 0, 3, 4, 0, 5, 1, 2, 5, 3, 4]));
    all.push(image(2, 4, &[1, 2, 3, 3, 0, 0, 2, 1]));
    all.push(image(2, 2, &[1, 1, 0, 0]));
    all.push(image(4, 16, &CROSSED));
    all.extend([2, 3, 4].map(|m| Factor::from_orders(3, &[m, 2, 3], 120).unwrap().to_image().unwrap()));
    all.push(Factor::from_orders(8, &[2; 28], 256).unwrap().to_image().unwrap());
    all
}

/// The same bytes with a change or two, or a whole image of random numbers.
fn damaged(r: &mut Random, base: &[u8]) -> Vec<u8> {
    let mut bytes = base.to_vec();
    match r.below(8) {
        0 => bytes.truncate(r.below(base.len() as u64 + 1) as usize),
        1 => bytes.extend((0..=r.below(2)).map(|_| BYTE)),
        2 => {
            let (n, count) = (r.below(11) as u8, r.below(7) as u16);
            bytes = image(n, count, &(0..u16::from(n) * count).map(|_| r.below(5) as u16).collect::<Vec<_>>());
        }
        // Two numbers exchanged, mostly of one column.
        3 | 4 if base.len() > 12 => {
            let n = u64::from(base[5]).max(1);
            let places = (base.len() as u64 - 8) / 2;
            let i = r.below(places);
            let j = if r.below(4) == 0 { r.below(places) } else { i % n + n * r.below(places / n) };
            for k in 0..2 {
                bytes.swap((8 + 2 * i + k) as usize, (8 + 2 * j + k) as usize);
            }
        }
        way => {
            for _ in 0..=r.below(2) {
                let from = if way == 5 { 0 } else { 8.min(base.len() as u64 - 1) };
                let i = (from + r.below(base.len() as u64 - from)) as usize;
                bytes[i] = [bytes[i] ^ 1, r.below(256) as u8, r.below(16) as u8][r.below(3) as usize];
            }
        }
    }
    bytes
}

#[test]
fn the_verdict_is_that_of_reading() {
    let (mut r, mut checker, mut met) = (Random(24), Checker::new(65_535), BTreeMap::new());
    let bases = bases();
    for bytes in &bases {
        *met.entry(compare(bytes, &mut checker)).or_insert(0) += 1;
    }
    let fine = [0, 2, 3, 4, 5, 9, 10, 11, 12].map(|i| compare(&bases[i], &mut checker));
    assert_eq!(fine, [0; 9]);
    for _ in 0..12_000 {
        let base = r.below(bases.len() as u64) as usize;
        let bytes = damaged(&mut r, &bases[base]);
        *met.entry(compare(&bytes, &mut checker)).or_insert(0) += 1;
    }
    assert_eq!(met.values().sum::<u32>(), 12_000 + bases.len() as u32);
    // 6 needs words that are too long, and has its own test.
    for number in [0, 1, 5, 7, 8, 9, 10, 11, 12, 16] {
        assert!(met.get(&number).is_some_and(|&k| k >= 5), "{number}: {met:?}");
    }
}

#[test]
fn words_that_are_too_long() {
    let mut checker = Checker::new(65_535);
    assert_eq!(compare(&ring(4097), &mut checker), 0);
    assert_eq!(compare(&ring(4098), &mut checker), 6);
    assert_eq!(numbers(Image::check(&ring(4098))), (6, [4096, 0, 0]));
}

#[test]
fn needs() {
    let need = |bytes: &[u8]| raw::image_need(bytes).map_err(|x| (x.number, x.places[0]));
    assert_eq!(need(&image(0, 1, &[])), Ok(100));
    for count in [2, 3, 256, 65_535] {
        assert_eq!(need(&image(0, count, &[])), Err((16, 0)));
    }
    assert_eq!(need(&image(0, 0, &[])), Err((16, 0)));
    assert_eq!(need(&image(1, 1, &[0])), Ok(132));
    assert_eq!(need(&image(1, 2, &[1, 0])), Ok(264));
    assert_eq!(need(&image(8, 1, &[0; 8])), Ok(2148));
    assert_eq!(need(&image(9, 1, &[0; 9])), Err((1, 9)));
    assert_eq!(need(&image(255, 1, &[0; 255])), Err((1, 255)));
    // The largest image, whatever its numbers.
    let largest = image(8, 65_535, &[0; 8 * 65_535]);
    assert_eq!((largest.len(), need(&largest)), (1_048_568, Ok(140_769_180)));
    // A length, a size and a version that are one off.
    let z2 = ring(2);
    for (at, by) in [(3, 1), (3, 255), (4, 1), (4, 255), (5, 255), (6, 1), (7, 1), (7, 255)] {
        let mut wrong = z2.clone();
        wrong[at] = wrong[at].wrapping_add(by);
        assert_eq!(need(&wrong), Err((16, 0)), "{at} {by}");
    }
    for end in 0..z2.len() {
        assert_eq!(need(&z2[..end]), Err((16, 0)));
    }
    assert_eq!(need(&[&z2[..], &[0]].concat()), Err((16, 0)));
}

#[test]
fn a_checker_has_a_limit_and_one_buffer() {
    let (z2, z3, broken) = (ring(2), ring(3), image(1, 3, &[1, 2, 1]));
    let mut checker = Checker::new(2);
    assert_eq!((checker.most(), checker.work()), (2, 0));
    assert_eq!(checker.check(&z3).unwrap_err().to_string(), "the image has 3 elements, and 2 are taken");
    // The limit comes before what only the rest of the image tells, and after what its head tells.
    assert!(matches!(checker.check(&broken), Err(Unchecked::TooLarge { elements: 3, most: 2 })));
    assert!(matches!(checker.check(&z3[1..]), Err(Unchecked::Refused(Refusal { number: 16, .. }))));
    assert!(matches!(checker.check(&image(0, 3, &[])), Err(Unchecked::Refused(Refusal { number: 16, .. }))));
    assert_eq!(checker.work(), 0);
    assert_eq!(checker.check(&z2).unwrap(), Image::check(&z2).unwrap());
    assert_eq!(checker.work(), 2 * 132);

    // It grows to what the largest needs, and no further; a smaller one leaves it as it is.
    let mut checker = Checker::new(3);
    for (bytes, work) in [(&z2, 264), (&z3, 396), (&z2, 396), (&z3, 396)] {
        assert_eq!(checker.check(bytes).unwrap().bytes(), bytes);
        assert_eq!(checker.work(), work);
    }
    // What is to be kept shares its bytes, and is refused in the same way.
    let shared: Arc<[u8]> = z3.clone().into();
    let kept = checker.check_owned(shared.clone()).unwrap();
    assert_eq!((kept.bytes().as_ptr(), kept.element_count(), checker.work()), (shared.as_ptr(), 3, 396));
    for bytes in [&broken, &ring(4), &z2[1..].to_vec()] {
        assert_eq!(checker.check_owned(bytes[..].into()).unwrap_err(), checker.check(bytes).unwrap_err());
    }
    let refusal = checker.check(&broken).unwrap_err();
    assert_eq!(refusal, Unchecked::Refused(Image::check(&broken).unwrap_err()));
    assert_eq!(refusal.to_string(), Image::check(&broken).unwrap_err().to_string());
    assert_eq!(format!("{checker:?}"), "Checker { most: 3, work: 396 }");
}
