//! The scope document's known groups and images, through the safe interface.
use hypergroup::{Builder, Element, Factor, Generator, Image, Product, Refusal, Stored, Subgroup};

const S3: [u32; 12] = [1, 2, 0, 3, 4, 0, 5, 1, 2, 5, 3, 4];
const CROSSED: [u32; 64] = [
    1, 2, 3, 4, 0, 5, 6, 7, 5, 0, 8, 9, 6, 8, 0, 10, 7, 9, 10, 0, 2, 1, 11, 12, 3, 12, 1, 13, 4, 11, 13, 1, 11, 3, 2, 14, 12, 4, 14, 2, 13,
    14, 4, 3, 8, 7, 5, 15, 9, 6, 15, 5, 10, 15, 7, 6, 15, 10, 9, 8, 14, 13, 12, 11,
];

fn rows(f: &Factor) -> Vec<u32> {
    f.elements().flat_map(|e| f.generators().map(move |g| (e, g))).map(|(e, g)| f.step(e, g).unwrap().0).collect()
}

fn refused<T: std::fmt::Debug>(answer: Result<T, Refusal>) -> (u32, [u32; 3]) {
    let refusal = answer.unwrap_err();
    assert!(refusal.to_string().starts_with(&format!("refused ({}): ", refusal.number)));
    (refusal.number, refusal.places)
}

#[test]
fn tables_of_pair_orders() {
    assert_eq!(rows(&Factor::from_orders(2, &[2], 4).unwrap()), [1, 2, 0, 3, 3, 0, 2, 1]);
    let s3 = Factor::from_orders(2, &[3], 6).unwrap();
    assert_eq!(rows(&s3), S3);
    let inverses: Vec<u32> = s3.elements().map(|e| s3.inverse(e).unwrap().0).collect();
    assert_eq!(inverses, [0, 1, 2, 4, 3, 5]);
    assert_eq!(s3.word(Element(5)).unwrap(), [0, 1, 0].map(Generator));
    assert_eq!(s3.words().map(|(_, w)| w.len()).collect::<Vec<_>>(), [0, 1, 1, 2, 2, 3]);
    assert_eq!(s3, Factor::from_rows(2, &S3).unwrap());
    assert_eq!(Factor::from_orders(3, &[5, 2, 3], 120).unwrap().element_count(), 120);
}

#[test]
fn edges_of_pair_orders() {
    assert_eq!(refused(Factor::from_orders(9, &[], 1)), (1, [9, 0, 0]));
    assert_eq!(refused(Factor::from_orders(2, &[], 1)).0, 2);
    assert_eq!(refused(Factor::from_orders(2, &[1], 1)), (3, [0; 3]));
    assert_eq!(refused(Factor::from_orders(2, &[32_768], 1)), (3, [0; 3]));
    for room in [0, 65_536, u32::MAX] {
        assert_eq!(refused(Factor::from_orders(2, &[3], room)).0, 4);
    }
    assert_eq!(refused(Factor::from_orders(3, &[5, 2, 3], 119)).0, 5);
    assert_eq!(refused(Factor::from_orders(2, &[4097], 8194)).0, 6);
    assert_eq!(refused(Factor::from_orders(2, &[4097], 8193)).0, 5);
    // The product of a line that is too long and a pair: 4 * 4,096 elements come before its word.
    assert_eq!(refused(Factor::from_orders(3, &[32_767, 2, 2], 65_535)), (6, [16_380, 0, 0]));
    // Both sides of the edge between 5 and 6, which one place decides, and the room before it.
    assert_eq!(refused(Factor::from_orders(3, &[32_767, 2, 2], 16_385)), (6, [16_380, 0, 0]));
    assert_eq!(refused(Factor::from_orders(3, &[32_767, 2, 2], 16_384)), (5, [16_380, 0, 0]));
    assert_eq!(refused(Factor::from_orders(3, &[32_767, 2, 2], 16_383)), (5, [16_378, 2, 0]));
}

#[test]
fn tables_that_are_refused() {
    assert_eq!(refused(Factor::from_rows(1, &[1, 1])), (8, [0; 3]));
    assert_eq!(refused(Factor::from_rows(1, &[0])), (9, [0; 3]));
    assert_eq!(refused(Factor::from_rows(2, &[1, 2, 3, 3, 0, 0, 2, 1])), (10, [1, 2, 2]));
    assert_eq!(refused(Factor::from_rows(2, &[1, 1, 0, 0])), (11, [1, 0, 0]));
    assert_eq!(refused(Factor::from_rows(4, &CROSSED)), (12, [0; 3]));
    assert_eq!(refused(Factor::from_rows(1, &[2, 0])), (7, [0, 0, 2]));
    assert_eq!(refused(Factor::from_rows(1, &[])).0, 4);
    assert_eq!(refused(Factor::from_rows(255, &[])), (1, [255, 0, 0]));
}

#[test]
fn arguments_out_of_range() {
    let s3 = Factor::from_rows(2, &S3).unwrap();
    assert_eq!(refused(s3.step(Element(6), Generator(0))), (14, [0; 3]));
    assert_eq!(refused(s3.step(Element(5), Generator(2))), (14, [1, 0, 0]));
    assert_eq!(refused(s3.compose(Element(0), Element(u32::MAX))), (14, [1, 0, 0]));
    assert_eq!(refused(s3.word(Element(6))).0, 14);
    assert_eq!(refused(s3.generator(Generator(255))).0, 14);
    assert_eq!(s3.check(&[3]), Ok(()));
    assert_eq!(refused(s3.check(&[2])).0, 13);
}

type Walk<'a> = &'a dyn Fn(Element, &[Generator]) -> Result<Element, Refusal>;

/// The start has position 0 and the turn at i has i + 1, whatever comes behind; an empty word leads to its start, and looks at it.
#[test]
fn walks_refuse_by_position() {
    let s3 = Factor::from_rows(2, &S3).unwrap();
    let pair = Product::new([&s3, &Factor::from_rows(1, &[1, 0]).unwrap()]).unwrap();
    let one = Product::new([&s3]).unwrap();
    let none = Product::new([]).unwrap();
    let walks: [(Walk, u32, u8); 4] =
        [(&|e, w| s3.walk(e, w), 6, 2), (&|e, w| one.walk(e, w), 6, 2), (&|e, w| pair.walk(e, w), 12, 3), (&|e, w| none.walk(e, w), 1, 0)];
    for (walk, count, n) in walks {
        for e in (0..count).map(Element) {
            assert_eq!(walk(e, &[]), Ok(e));
        }
        for beyond in [count, 1000, u32::MAX] {
            assert_eq!(refused(walk(Element(beyond), &[])), (14, [0; 3]));
            assert_eq!(refused(walk(Element(beyond), &[Generator(n)])), (14, [0; 3]));
        }
        // A right turn where there is one, and then the wrong one at each place, alone or with another behind it.
        let right = if n == 0 { vec![] } else { vec![Generator(0), Generator(n - 1), Generator(0), Generator(0)] };
        for at in 0..=right.len() {
            for wrong in [n, n.max(9), 255] {
                let mut word = right[..at].to_vec();
                word.push(Generator(wrong));
                assert_eq!(refused(walk(Element(0), &word)), (14, [at as u32 + 1, 0, 0]));
                word.extend([Generator(0), Generator(255)]);
                assert_eq!(refused(walk(Element(0), &word)), (14, [at as u32 + 1, 0, 0]));
            }
        }
    }
    // A long word, wrong at its very end.
    let mut long = vec![Generator(1); 100_000];
    assert_eq!((s3.walk(Element(3), &long), pair.walk(Element(9), &long)), (Ok(Element(3)), Ok(Element(9))));
    *long.last_mut().unwrap() = Generator(3);
    assert_eq!(refused(pair.walk(Element(9), &long)), (14, [100_000, 0, 0]));
}

/// One walk is the steps one after another, from every element, in products of 0 to 8 factors, some with no turn of their own.
#[test]
fn a_walk_is_its_steps() {
    let parts = [
        Factor::from_rows(2, &S3).unwrap(),
        Factor::from_orders(0, &[], 1).unwrap(),
        Factor::from_rows(1, &[1, 2, 0]).unwrap(),
        Factor::from_orders(2, &[2], 4).unwrap(),
    ];
    let turns = |n: u32, len: u32| (0..len).map(|i| Generator((i * i * 7 % 31 % n) as u8)).collect::<Vec<_>>();
    for chosen in [&[0][..], &[0, 2], &[1, 0], &[0, 1, 2], &[1, 3, 1, 0, 1], &[2, 1, 2, 0, 3, 1, 1, 2]] {
        let p = Product::new(chosen.iter().map(|&i| &parts[i])).unwrap();
        let word = turns(p.generator_count().into(), 60);
        for e in p.elements().step_by(1 + p.element_count() as usize / 100) {
            let mut there = e;
            for (i, &g) in word.iter().enumerate() {
                assert_eq!(p.walk(e, &word[..i]), Ok(there));
                there = p.step(there, g).unwrap();
            }
        }
    }
}

#[test]
fn live_and_delayed_viewers() {
    let puzzle = Factor::from_orders(3, &[4, 2, 3], 48).unwrap();
    let product = Product::new([&puzzle, &Factor::from_rows(1, &[1, 2, 0]).unwrap()]).unwrap();
    let turns: Vec<Generator> = (0..100).map(|i| Generator((i * i % 7 % 4) as u8)).collect();
    for from in product.elements() {
        let missed = product.walk(Element::IDENTITY, &turns).unwrap();
        assert_eq!(product.walk(from, &turns), product.compose(from, missed));
    }
}

/// "`compose` walks the word of the second from the first", whichever way the answer is found: all pairs of a group with words of 0 to 15 letters, of one in which
/// an inverse's word may be the longer, and of eight generators; and some of words of thousands of letters.
#[test]
fn compose_walks_the_word() {
    let h3 = Factor::from_orders(3, &[5, 2, 3], 120).unwrap();
    let z13 = Factor::from_rows(1, &(1..13).chain([0]).collect::<Vec<_>>()).unwrap();
    let eight = Factor::from_orders(8, &[2; 28], 256).unwrap();
    let long = Factor::from_orders(2, &[4096], 8192).unwrap();
    for (f, every) in [(h3, 1), (z13, 1), (eight, 1), (long, 271)] {
        for b in f.elements().step_by(every) {
            let word = f.word(b).unwrap();
            for a in f.elements().step_by(every) {
                let walked = word.iter().fold(a, |e, &g| f.step(e, g).unwrap());
                assert_eq!(f.compose(a, b), Ok(walked));
            }
        }
    }
}

#[test]
fn products() {
    let (s3, z2) = (Factor::from_rows(2, &S3).unwrap(), Factor::from_rows(1, &[1, 0]).unwrap());
    let p = Product::new([&s3, &z2]).unwrap();
    assert_eq!((p.element_count(), p.generator_count(), p.factor_count()), (12, 3, 2));
    for e in p.elements() {
        let digits = p.split(e).unwrap();
        assert_eq!(p.join(&digits), Ok(e));
        assert_eq!(p.compose(p.inject(0, digits[0]).unwrap(), p.inject(1, digits[1]).unwrap()), Ok(e));
        assert_eq!(p.project(1, e), Ok(digits[1]));
        assert_eq!(p.walk(Element::IDENTITY, &p.word(e).unwrap()), Ok(e));
        assert_eq!(p.powi(e, p.period(e).unwrap() as i32), Ok(Element::IDENTITY));
        assert_eq!(p.conjugate(e, e), Ok(e));
    }
    assert_eq!(p.generators().map(|g| p.generator(g).unwrap().0).collect::<Vec<_>>(), [1, 2, 6]);
    assert_eq!(refused(p.flatten()), (7, [0, 2, 6]));
    assert_eq!(refused(p.join(&[Element(0)])).0, 4);
    assert_eq!(refused(p.project(2, Element(0))), (14, [0; 3]));
    assert_eq!(Product::new([&s3]).unwrap().flatten(), Ok(s3.clone()));
    let none = Product::new([]).unwrap();
    assert_eq!((none.element_count(), none.split(Element(0)).unwrap().len()), (1, 0));
    assert_eq!(none.flatten().unwrap().generator_count(), 0);
}

#[test]
fn products_that_are_too_large() {
    let z2 = Factor::from_rows(1, &[1, 0]).unwrap();
    assert_eq!(Product::new([&z2; 8]).unwrap().element_count(), 256);
    assert_eq!(refused(Product::new([&z2; 9])).0, 15);
    assert_eq!(refused(Product::new(std::iter::repeat_n(&z2, 1000))).0, 15);
    let large = Factor::from_orders(2, &[4096], 8192).unwrap();
    assert_eq!(Product::new([&large, &large]).unwrap().element_count(), 67_108_864);
    assert_eq!(refused(Product::new([&large, &large, &large])).0, 15);
}

#[test]
fn images() {
    let z2 = Factor::from_rows(1, &[1, 0]).unwrap();
    assert_eq!(z2.to_image().unwrap(), [0, 0, 0, 8, 1, 1, 0, 2, 0, 1, 0, 0]);
    let one = Factor::from_orders(0, &[], 1).unwrap();
    assert_eq!(one.to_image().unwrap(), [0, 0, 0, 4, 1, 0, 0, 1]);
    let s3 = Factor::from_rows(2, &S3).unwrap();
    let bytes = s3.to_image().unwrap();
    let image = Image::check(&bytes).unwrap();
    assert_eq!((image.generator_count(), image.element_count(), image.bytes()), (2, 6, &bytes[..]));
    assert_eq!(image.read(), Ok(s3));
    assert_eq!(refused(image.walk(Element(6), &[Generator(2)])), (14, [0; 3]));
    assert_eq!(refused(image.walk(Element(0), &[Generator(1), Generator(2)])), (14, [2, 0, 0]));
    assert_eq!(refused(Image::check(&[])).0, 16);
    assert_eq!(refused(Image::check(&[0, 0, 0, 4, 1, 9, 0, 1])).0, 1);
    assert_eq!(refused(Factor::from_image(&[0, 0, 0, 4, 1, 9, 0, 1])), (1, [9, 0, 0]));
}

/// The check and the reading refuse the same damage, and what they take is written back as it was.
#[test]
fn damaged_images() {
    for factor in [Factor::from_rows(2, &S3), Factor::from_rows(1, &[1, 2, 0]), Factor::from_orders(0, &[], 1)] {
        let whole = factor.unwrap().to_image().unwrap();
        let changed = (0..whole.len()).flat_map(|i| [0, 1, 2, 6, 9, 255].map(|v| (i, v)));
        let cut = (0..whole.len()).map(|k| whole[..k].to_vec());
        let damaged = changed.map(|(i, v)| {
            let mut image = whole.clone();
            image[i] = v;
            image
        });
        for image in damaged.chain(cut).chain([[&whole[..], &[0]].concat()]) {
            match (Image::check(&image), Factor::from_image(&image)) {
                (Ok(_), Ok(factor)) => assert_eq!(factor.to_image().unwrap(), image),
                (Err(checked), Err(read)) => assert_eq!(checked, read),
                both => panic!("{image:?} {both:?}"),
            }
        }
    }
}

#[test]
fn built_step_by_step() {
    let mut b = Builder::new(2, 6).unwrap();
    let mut known = 1;
    for (place, &to) in S3.iter().enumerate() {
        let (e, g) = (Element(place as u32 / 2), Generator((place % 2) as u8));
        if to == known {
            assert_eq!(b.add(e, g), Ok(Element(to)));
            known += 1;
        } else {
            assert_eq!(b.set(e, g, Element(to)), Ok(Stored::New));
        }
    }
    assert_eq!(b.set(Element(5), Generator(1), Element(4)), Ok(Stored::Known));
    assert_eq!(b.clone().build(), Factor::from_rows(2, &S3));
    assert_eq!(refused(b.set(Element(0), Generator(0), Element(6))), (14, [2, 0, 0]));
    assert_eq!(refused(b.add(Element(0), Generator(0))), (5, [0; 3]));
    assert_eq!(b.element_count(), 0);
    assert_eq!(refused(b.add(Element(0), Generator(0))).0, 17);
    assert_eq!(refused(b.build()).0, 17);
    assert_eq!(refused(Builder::new(9, 6)), (1, [9, 0, 0]));
    assert_eq!(refused(Builder::new(2, 0)).0, 4);
}

#[test]
fn subgroups() {
    let (s3, z2) = (Factor::from_rows(2, &S3).unwrap(), Factor::from_rows(1, &[1, 0]).unwrap());
    let over = Product::new([&s3, &z2]).unwrap();
    let sub = Subgroup::new(&over, &[Element(3), Element(6)]).unwrap();
    assert_eq!((sub.generator_count(), sub.element_count(), sub.overgroup_count()), (2, 6, 12));
    assert_eq!(sub.factor().generators().map(|g| sub.generator(g).unwrap().0).collect::<Vec<_>>(), [3, 6]);
    for x in over.elements() {
        if let Some(e) = sub.to_subgroup(x).unwrap() {
            assert_eq!(sub.to_overgroup(e), Ok(x));
            assert_eq!(sub.to_overgroup(sub.factor().inverse(e).unwrap()), over.inverse(x));
        }
    }
    for (a, b) in sub.factor().elements().flat_map(|a| sub.factor().elements().map(move |b| (a, b))) {
        let [x, y] = [a, b].map(|e| sub.to_overgroup(e).unwrap());
        assert_eq!(sub.to_overgroup(sub.factor().compose(a, b).unwrap()), over.compose(x, y));
    }
    assert_eq!(refused(Subgroup::new(&over, &[Element(0)])).0, 9);
    assert_eq!(refused(Subgroup::new(&over, &[Element(3), Element(3)])), (11, [1, 0, 0]));
    assert_eq!(refused(Subgroup::new(&over, &[Element(3), Element(12)])), (14, [1, 0, 0]));
    assert_eq!(refused(Subgroup::new(&over, &[Element(3); 9])), (1, [9, 0, 0]));
    assert_eq!(refused(Subgroup::new_with_room(&over, &[Element(3)], 2)).0, 5);
    assert_eq!(refused(Subgroup::new_with_room(&over, &[Element(3)], 0)).0, 4);
    assert_eq!(refused(sub.to_overgroup(Element(6))), (14, [0; 3]));
    assert_eq!(refused(sub.to_subgroup(Element(12))), (14, [0; 3]));
    let even = Subgroup::from_predicate(&over, |x| sub.to_subgroup(x).unwrap().is_some()).unwrap();
    assert_eq!(even.element_count(), 6);
    // The trivial subgroup, of the group of one element.
    let trivial = Subgroup::new(&Product::new([]).unwrap(), &[]).unwrap();
    assert_eq!((trivial.generator_count(), trivial.element_count(), trivial.overgroup_count()), (0, 1, 1));
    assert_eq!((trivial.to_overgroup(Element(0)), trivial.to_subgroup(Element(0))), (Ok(Element(0)), Ok(Some(Element(0)))));
    assert!(over.elements().all(|x| even.to_subgroup(x).unwrap().is_some() == sub.to_subgroup(x).unwrap().is_some()));
    let large = Factor::from_orders(2, &[4096], 8192).unwrap();
    assert_eq!(refused(Subgroup::new(&Product::new([&large, &large]).unwrap(), &[Element(1)])).0, 15);
}

#[test]
fn subgroups_with_factors_multiplied_on() {
    let (s3, z2) = (Factor::from_rows(2, &S3).unwrap(), Factor::from_rows(1, &[1, 0]).unwrap());
    let (over, beside) = (Product::new([&s3]).unwrap(), Product::new([&z2]).unwrap());
    let turns = Subgroup::new(&over, &[Element(3)]).unwrap();
    let left = turns.multiplied_left(&beside).unwrap();
    let both = left.multiplied_right(&Product::new([&s3]).unwrap()).unwrap();
    assert_eq!((left.element_count(), left.overgroup_count(), left.generator_count()), (6, 12, 2));
    assert_eq!((both.element_count(), both.overgroup_count(), both.generator_count()), (36, 72, 4));
    let within = Product::new([&z2, &s3, &s3]).unwrap();
    // Its overgroup answers as that product, and its generators are the product's but for those of the part that it is in.
    let whole = both.overgroup();
    assert_eq!((whole.element_count(), whole.generator_count()), (72, 5));
    assert!(within.elements().all(|x| whole.inverse(x) == within.inverse(x) && whole.word(x) == within.word(x)));
    assert_eq!(both.generators().map(|g| both.generator(g).unwrap().0).collect::<Vec<_>>(), [1, 6, 12, 24]);
    for e in (0..both.element_count()).map(Element) {
        let x = both.to_overgroup(e).unwrap();
        assert_eq!(both.to_subgroup(x), Ok(Some(e)));
        assert_eq!(within.split(x).unwrap()[1], turns.to_overgroup(Element(e.0 / 2 % 3)).unwrap());
    }
    let eight = Product::new([&z2; 8]).unwrap();
    assert_eq!(refused(turns.multiplied_left(&eight)).0, 15);
    assert_eq!(refused(turns.multiplied_right(&eight)).0, 15);
}
