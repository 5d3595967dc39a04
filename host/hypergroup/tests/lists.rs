//! Questions over lists, through the safe types: at each place what the single call answers, the first place that it refuses, and what a refusal leaves.
use hypergroup::{Element, Factor, Generator, ListRefusal, Product, Refusal, raw};

const S3: [u32; 12] = [1, 2, 0, 3, 4, 0, 5, 1, 2, 5, 3, 4];

fn s3() -> Factor {
    Factor::from_rows(2, &S3).unwrap()
}

/// The numbers below so many, by adding 1 and 46, so that no word is long.
fn turns(elements: u32) -> Factor {
    let mut values = vec![0];
    let compose = |e: Element, g: Generator| {
        let value = (values[e.0 as usize] + [1, 46][usize::from(g.0)]) % elements;
        let known = values.iter().position(|&v| v == value).unwrap_or(values.len());
        if known == values.len() {
            values.push(value);
        }
        Element(known as u32)
    };
    Factor::from_compose_fn(2, compose, elements).unwrap()
}

/// Elements of a group with so many, all of them in a list that is long enough, and exponents of every kind.
fn lists(places: usize, elements: u32) -> (Vec<Element>, Vec<Element>, Vec<i32>) {
    let at = |i: usize, by: u32, from: u32| Element((i as u32 * by + from) % elements);
    let exponents = [0, 1, -1, 2, -2, 5, 100, -99, i32::MAX, i32::MIN];
    let a = (0..places).map(|i| at(i, 7, 3)).collect();
    let b = (0..places).map(|i| at(i / 5, 11, 1)).collect();
    (a, b, (0..places).map(|i| exponents[i % 10]).collect())
}

/// The lengths at which something changes: none; one, which is the single call; four, from which on walks may go side by side; 32, up to which a small factor's places are
/// asked one by one; 64, up to which a short list is kept for the results, and which is a product's chunk; 256, which is a piece of a longer list; and the most. With the
/// lengths beside them.
const LENGTHS: [usize; 17] = [0, 1, 2, 3, 4, 5, 32, 33, 63, 64, 65, 100, 256, 257, 513, 4095, 4096];

/// A list of this mark is lent for the output.
const OLD: Element = Element(77);

/// The same of a factor and of a product: what a macro is asked with is either.
macro_rules! place_by_place {
    ($x:expr, $elements:expr) => {
        for places in LENGTHS {
            let (a, b, i) = lists(places, $elements);
            let single: Vec<Element> = (0..places).map(|k| $x.compose(a[k], b[k]).unwrap()).collect();
            assert_eq!($x.compose_each(&a, &b), Ok(single.clone()));
            let mut out = vec![OLD; places];
            assert_eq!($x.compose_each_into(&a, &b, &mut out), Ok(()));
            assert_eq!(out, single);
            let single: Vec<Element> = a.iter().map(|&a| $x.inverse(a).unwrap()).collect();
            assert_eq!($x.inverse_each(&a), Ok(single.clone()));
            assert_eq!($x.inverse_each_into(&a, &mut out), Ok(()));
            assert_eq!(out, single);
            let single: Vec<Element> = (0..places).map(|k| $x.powi(a[k], i[k]).unwrap()).collect();
            assert_eq!($x.powi_each(&a, &i), Ok(single.clone()));
            assert_eq!($x.powi_each_into(&a, &i, &mut out), Ok(()));
            assert_eq!(out, single);
        }
    };
}

#[test]
fn each_place_is_the_single_call() {
    let (s3, cube) = (s3(), Factor::from_orders(3, &[4, 2, 3], 48).unwrap());
    let z2 = Factor::from_orders(1, &[], 2).unwrap();
    place_by_place!(s3, 6);
    place_by_place!(cube, 48);
    place_by_place!(Product::default(), 1);
    place_by_place!(Product::from(&s3), 6);
    place_by_place!(Product::new([&s3, &cube, &z2]).unwrap(), 576);
    place_by_place!(Product::new([&s3; 8]).unwrap(), 1_679_616);
}

/// Above 2,048 elements walks go side by side: both sides of that, and far above it, by themselves and in a product.
#[test]
fn each_place_of_a_large_group() {
    let (most, above) = (turns(2048), turns(2049));
    assert_eq!((most.element_count(), above.element_count()), (2048, 2049));
    let h4 = Factor::from_orders(4, &[5, 2, 3, 2, 2, 3], 14_400).unwrap();
    place_by_place!(most, 2048);
    place_by_place!(above, 2049);
    place_by_place!(h4, 14_400);
    place_by_place!(Product::new([&s3(), &h4, &above]).unwrap(), 177_033_600);
}

#[test]
fn known_answers() {
    let s3 = s3();
    // Document 01: compose(1,3) is 2 and compose(3,1) is 5; the inverses are 0 1 2 4 3 5.
    assert_eq!(s3.compose_each(&[1, 3].map(Element), &[3, 1].map(Element)).unwrap(), [2, 5].map(Element));
    assert_eq!(s3.inverse_each(&[0, 1, 2, 3, 4, 5].map(Element)).unwrap(), [0, 1, 2, 4, 3, 5].map(Element));
    assert_eq!(s3.powi_each(&[3, 3, 3, 1].map(Element), &[2, 3, -1, i32::MIN]).unwrap(), [4, 0, 4, 0].map(Element));
}

fn told<T: std::fmt::Debug>(answer: Result<T, ListRefusal>) -> (Option<usize>, u32, [u32; 3]) {
    let ListRefusal { place, refusal, .. } = answer.unwrap_err();
    (place, refusal.number, refusal.places)
}

/// 14 at a place is the first of several, with the position that the single call tells; the output is as it was.
macro_rules! first_refused {
    ($x:expr, $elements:expr) => {
        for places in LENGTHS.into_iter().filter(|&k| k > 0) {
            let (right, b, i) = lists(places, $elements);
            for place in [0, places / 2, places - 1] {
                let (mut a, mut out) = (right.clone(), vec![OLD; places]);
                a[place] = Element($elements);
                a[places - 1] = Element(u32::MAX);
                let due = (Some(place), 14, [0; 3]);
                assert_eq!(told($x.compose_each(&a, &b)), due);
                assert_eq!(told($x.compose_each_into(&a, &b, &mut out)), due);
                assert_eq!(told($x.compose_each_into(&right, &a, &mut out)), (Some(place), 14, [1, 0, 0]));
                assert_eq!(told($x.inverse_each(&a)), due);
                assert_eq!(told($x.inverse_each_into(&a, &mut out)), due);
                assert_eq!(told($x.powi_each(&a, &i)), due);
                assert_eq!(told($x.powi_each_into(&a, &i, &mut out)), due);
                assert_eq!(out, vec![OLD; places]);
                assert_eq!($x.compose_each(&a, &b).unwrap_err().refusal, $x.compose(a[place], b[place]).unwrap_err());
            }
        }
    };
}

/// One place is answered as the first of two is, for which no single call is made: the same refusal, in the same words, and the output as it was.
macro_rules! one_as_of_two {
    ($x:expr, $elements:expr) => {
        let (right, wrong) = (Element(0), Element($elements));
        for (a, b) in [(wrong, right), (right, wrong), (wrong, wrong), (Element(u32::MAX), right)] {
            let mut out = [OLD];
            let alone = $x.compose_each_into(&[a], &[b], &mut out).unwrap_err();
            let first = $x.compose_each(&[a, right], &[b, right]).unwrap_err();
            assert_eq!((alone, alone.to_string(), out), (first, first.to_string(), [OLD]));
        }
        let mut out = [OLD];
        let alone = $x.inverse_each_into(&[wrong], &mut out).unwrap_err();
        let first = $x.inverse_each(&[wrong, right]).unwrap_err();
        assert_eq!((alone, alone.to_string(), out), (first, first.to_string(), [OLD]));
        let alone = $x.powi_each_into(&[wrong], &[-1], &mut out).unwrap_err();
        let first = $x.powi_each(&[wrong, right], &[-1, 1]).unwrap_err();
        assert_eq!((alone, alone.to_string(), out), (first, first.to_string(), [OLD]));
        for e in (0..$elements.min(100)).map(Element) {
            assert_eq!($x.compose_each(&[e], &[e]).unwrap()[0], $x.compose_each(&[e, e], &[e, e]).unwrap()[0]);
            assert_eq!($x.inverse_each(&[e]).unwrap()[0], $x.inverse_each(&[e, e]).unwrap()[0]);
            assert_eq!($x.powi_each(&[e], &[-3]).unwrap()[0], $x.powi_each(&[e, e], &[-3, 1]).unwrap()[0]);
        }
    };
}

#[test]
fn one_place_as_the_first_of_two() {
    let (s3, z7) = (s3(), Factor::from_rows(1, &[1, 2, 3, 4, 5, 6, 0]).unwrap());
    one_as_of_two!(s3, 6u32);
    one_as_of_two!(z7, 7u32);
    one_as_of_two!(Product::default(), 1u32);
    one_as_of_two!(Product::from(&z7), 7u32);
    one_as_of_two!(Product::new([&s3, &z7]).unwrap(), 42u32);
}

#[test]
fn the_first_refused_place() {
    let s3 = s3();
    first_refused!(s3, 6);
    first_refused!(Product::default(), 1);
    first_refused!(Product::from(&s3), 6);
    first_refused!(Product::new([&s3; 8]).unwrap(), 1_679_616);
    let above = turns(2049);
    first_refused!(above, 2049);
    first_refused!(Product::new([&above, &s3]).unwrap(), 12_294);
}

/// 4 comes before any place is looked at, and has none.
macro_rules! lengths_that_differ {
    ($x:expr) => {
        let wrong = vec![Element(u32::MAX); 4098];
        let exponents = vec![1; 4098];
        let four = (None, 4, [0; 3]);
        for (a, b) in [(0, 1), (1, 0), (64, 65), (65, 64), (4096, 4097), (4097, 4096), (4097, 4097), (4098, 4098)] {
            assert_eq!(told($x.compose_each(&wrong[..a], &wrong[..b])), four);
            assert_eq!(told($x.powi_each(&wrong[..a], &exponents[..b])), four);
            for long in [a, b] {
                let mut out = vec![OLD; long];
                assert_eq!(told($x.compose_each_into(&wrong[..a], &wrong[..b], &mut out)), four);
                assert_eq!(told($x.powi_each_into(&wrong[..a], &exponents[..b], &mut out)), four);
                assert_eq!(out, vec![OLD; long]);
            }
            if a != b {
                let mut out = vec![OLD; b];
                assert_eq!(told($x.compose_each_into(&wrong[..a], &wrong[..a], &mut out)), four);
                assert_eq!(told($x.inverse_each_into(&wrong[..a], &mut out)), four);
                assert_eq!(told($x.powi_each_into(&wrong[..a], &exponents[..a], &mut out)), four);
                assert_eq!(out, vec![OLD; b]);
            }
        }
        assert_eq!(told($x.inverse_each(&wrong[..raw::MOST_PLACES + 1])), four);
        assert_eq!(told($x.inverse_each(&wrong[..raw::MOST_PLACES])), (Some(0), 14, [0; 3]));
    };
}

#[test]
fn refused_lists() {
    lengths_that_differ!(s3());
    lengths_that_differ!(Product::new([&s3(), &s3()]).unwrap());
}

#[test]
fn in_words() {
    fn refused(factor: &Factor) -> Result<Vec<Element>, Refusal> {
        // A function that is refused for other reasons too hands the refusal on without its place.
        Ok(factor.inverse_each(&[Element(1), Element(6)])?)
    }
    assert_eq!((refused(&s3()).unwrap_err().number, refused(&s3()).unwrap_err().places), (Refusal::OUT_OF_RANGE, [0; 3]));
    let at: Box<dyn std::error::Error + Send + Sync> =
        s3().compose_each(&[1, 2, 3, 4].map(Element), &[0, 0, 0, 6].map(Element)).unwrap_err().into();
    assert_eq!(at.to_string(), "at place 3: refused (14): the argument at position 1, counted from 0, is out of range");
    let lists = s3().powi_each(&[Element(1)], &[]).unwrap_err();
    assert_eq!(lists.to_string(), "refused (4): the lists differ in length or have more than 4,096 places");
    assert_eq!(lists.refusal.to_string(), lists.to_string());
}
