//! The safe types: what is shared, what is refused and in which words, and both sides of each edge.
use hypergroup::{Builder, Checker, Element, Factor, Generator, Image, Naming, OwnedImage, Product, Refusal, Stored, Subgroup, Unchecked};
use std::collections::HashSet;
use std::sync::Arc;

const S3: [u32; 12] = [1, 2, 0, 3, 4, 0, 5, 1, 2, 5, 3, 4];
const CROSSED: [u32; 64] = [
    1, 2, 3, 4, 0, 5, 6, 7, 5, 0, 8, 9, 6, 8, 0, 10, 7, 9, 10, 0, 2, 1, 11, 12, 3, 12, 1, 13, 4, 11, 13, 1, 11, 3, 2, 14, 12, 4, 14, 2, 13,
    14, 4, 3, 8, 7, 5, 15, 9, 6, 15, 5, 10, 15, 7, 6, 15, 10, 9, 8, 14, 13, 12, 11,
];
const Z2_IMAGE: [u8; 12] = [0, 0, 0, 8, 1, 1, 0, 2, 0, 1, 0, 0];

fn s3() -> Factor {
    Factor::from_rows(2, &S3).unwrap()
}

fn cycle(n: u32) -> Factor {
    Factor::from_rows(1, &(1..n).chain([0]).collect::<Vec<_>>()).unwrap()
}

fn says<T: std::fmt::Debug>(answer: Result<T, Refusal>) -> String {
    answer.unwrap_err().to_string()
}

#[test]
fn everything_can_be_sent_and_shared() {
    fn shared<T: Clone + Send + Sync + 'static>() {}
    shared::<Factor>();
    shared::<Product>();
    shared::<Subgroup>();
    shared::<Builder>();
    shared::<Naming<'static>>();
    shared::<OwnedImage>();
    shared::<Image<'static>>();
    shared::<Refusal>();
    shared::<Unchecked>();
    shared::<Stored>();
    shared::<Element>();
    shared::<Generator>();
    // A checker has a buffer of its own that nobody needs twice.
    fn sent<T: Send + Sync + 'static>() {}
    sent::<Checker>();
}

/// A factor that was built in more room than it needs is cut to its elements: it is the one that an image tells, which is read with no more, in every answer.
#[test]
fn factors_without_their_room() {
    for (n, orders, count) in [(0, &[][..], 1), (1, &[], 2), (2, &[3], 6), (3, &[5, 2, 3], 120), (8, &[2; 28], 256)] {
        let factors = [count, count + 1, 65_535].map(|room| Factor::from_orders(n, orders, room).unwrap());
        let read = Factor::from_image(&factors[2].to_image().unwrap()).unwrap();
        for f in &factors {
            assert_eq!((f.element_count(), f.generator_count()), (count, n));
            assert_eq!(f, &read);
            assert_eq!(f.check(orders), Ok(()));
            for a in f.elements() {
                assert_eq!((f.word(a), f.inverse(a), f.period(a)), (read.word(a), read.inverse(a), read.period(a)));
                assert_eq!(f.compose(a, Element(count - 1)), read.compose(a, Element(count - 1)));
            }
            assert_eq!(f.step(Element(count), Generator(0)).unwrap_err().number, Refusal::OUT_OF_RANGE);
        }
        assert_eq!(Product::new(&factors[1..2]).unwrap().flatten().as_ref(), Ok(&read));
    }
    // The other calls that make a factor: a builder, a flattened product, a subgroup, rows that are never reached.
    let mut builder = Builder::new(1, 9).unwrap();
    builder.add(Element(0), Generator(0)).unwrap();
    builder.set(Element(1), Generator(0), Element(0)).unwrap();
    assert_eq!(builder.generator_count(), 1);
    let z2 = cycle(2);
    assert_eq!(builder.build().as_ref(), Ok(&z2));
    assert_eq!(Factor::from_rows(1, &[1, 0, 7, 7]).as_ref(), Ok(&z2));
    assert_eq!(Product::from(&z2).flatten_with_room(65_535).as_ref(), Ok(&z2));
    assert_eq!(Subgroup::new_with_room(&Product::from(&s3()), &[Element(1)], 65_535).unwrap().factor(), &z2);
    assert_ne!(z2, cycle(3));
}

/// All pairs of elements and exponents around every edge, against a power by composing.
#[test]
fn powers_and_periods_of_a_factor() {
    let f = Factor::from_orders(3, &[4, 2, 3], 48).unwrap();
    for a in f.elements() {
        let mut power = Element::IDENTITY;
        let mut period = None;
        for k in 0..13 {
            assert_eq!(f.powi(a, k), Ok(power));
            assert_eq!(f.powi(a, -k), f.inverse(power));
            if k > 0 && power == Element::IDENTITY {
                period = period.or(Some(k as u32));
            }
            power = f.compose(power, a).unwrap();
        }
        assert_eq!(f.period(a).ok(), period);
        // 2^31 is 8 modulo 12, which every period here divides.
        assert_eq!(f.powi(a, i32::MIN), f.powi(a, -8));
        assert_eq!(f.powi(a, i32::MAX), f.powi(a, 7));
    }
    assert_eq!(f.powi(Element(48), 0).unwrap_err(), f.period(Element(48)).unwrap_err());
    assert_eq!(f.period(Element(48)).unwrap_err().number, Refusal::OUT_OF_RANGE);
}

/// What a function was asked, and what came of it.
fn told(n: u8, room: u32, answers: &[u32]) -> (Vec<(u32, u8)>, Result<Factor, Refusal>) {
    let mut asked = vec![];
    let made = Factor::from_compose_fn(
        n,
        |e, g| {
            asked.push((e.0, g.0));
            Element(answers[e.0 as usize * usize::from(n) + usize::from(g.0)])
        },
        room,
    );
    (asked, made)
}

#[test]
fn a_function_is_asked_in_order_and_no_more_than_needed() {
    let places = |rows: u32, n: u8| (0..rows).flat_map(|e| (0..n).map(move |g| (e, g))).collect::<Vec<_>>();
    for room in [6, 7, 65_535] {
        assert_eq!(told(2, room, &S3), (places(6, 2), Ok(s3())));
    }
    // Room for all elements but the last: 5 where it appears, and nothing is asked behind that.
    let (asked, made) = told(2, 5, &S3);
    assert_eq!((asked, made.unwrap_err()), (places(4, 2)[..7].to_vec(), Factor::from_orders(2, &[3], 5).unwrap_err()));
    // A number that skips ahead, and a group that these are not; the same as by rows.
    let (asked, made) = told(1, 9, &[2, 0]);
    assert_eq!((asked.len(), made.as_ref().unwrap_err().places), (1, [0, 0, 2]));
    assert_eq!(made, Factor::from_rows(1, &[2, 0]));
    for skips in [2, 3] {
        let (asked, made) = told(2, 9, &[skips, 1]);
        assert_eq!((asked.len(), made.unwrap_err().places), (1, [0, 0, skips]));
    }
    assert_eq!(told(1, 9, &[1, 1]), (places(2, 1), Factor::from_rows(1, &[1, 1])));
    assert_eq!(told(1, 9, &[u32::MAX]).1.unwrap_err().number, Refusal::SKIPS_AHEAD);
    // 7 is before 5: a number beyond a room that is full skips ahead.
    assert_eq!(told(1, 1, &[2]).1.unwrap_err().number, Refusal::SKIPS_AHEAD);
    assert_eq!(told(1, 1, &[1]).1.unwrap_err().number, Refusal::BEYOND_ROOM);
    // No generators: nothing is asked. Arguments that are refused have nothing asked.
    for room in [1, 65_535] {
        assert_eq!(told(0, room, &[]).1.unwrap().element_count(), 1);
    }
    for (n, room, number) in [(9, 1, 1), (1, 0, 4), (1, 65_536, 4), (9, 0, 1)] {
        let (asked, made) = told(n, room, &[]);
        assert_eq!((asked.len(), made.unwrap_err().number), (0, number));
    }
    // A word of 4,096 letters is taken, and asking ends where one has more: the elements of a line, the next one at each turn.
    let long: Vec<u32> = (1..=4096).chain([0]).collect();
    assert_eq!(told(1, 65_535, &long).1.unwrap().element_count(), 4097);
    let longer: Vec<u32> = (1..=4097).chain([0]).collect();
    let (asked, made) = told(1, 65_535, &longer);
    assert_eq!((asked.len(), made.as_ref().unwrap_err().places), (4097, [4096, 0, 0]));
    assert_eq!(made.unwrap_err().number, Refusal::WORD_TOO_LONG);
    assert_eq!(told(1, 4097, &longer).1.unwrap_err().number, Refusal::BEYOND_ROOM);
}

#[test]
fn rows_that_are_not_whole() {
    assert_eq!(Factor::from_rows(2, &S3), Ok(s3()));
    for cut in 1..12 {
        let answer = Factor::from_rows(2, &S3[..cut]);
        match cut % 2 {
            1 => assert_eq!(says(answer), "refused (4): the last row does not have a number for each generator"),
            _ => assert_eq!(answer.unwrap_err().number, Refusal::BEYOND_ROOM),
        }
    }
    assert_eq!(Factor::from_rows(2, &[&S3[..], &[0]].concat()).unwrap_err().number, Refusal::BAD_ROOM);
    // A whole row that is never reached is taken, whatever stands in it.
    assert_eq!(Factor::from_rows(2, &[&S3[..], &[9, 9]].concat()), Ok(s3()));
    // More rows than there can be elements, with and without a part of one.
    let mut many = vec![0; 65_536];
    many[0] = 1;
    assert_eq!(Factor::from_rows(1, &many), Ok(cycle(2)));
    let mut many = vec![0; 2 * 65_536];
    many[..8].copy_from_slice(&[1, 2, 0, 3, 3, 0, 2, 1]);
    assert_eq!(Factor::from_rows(2, &many).unwrap().element_count(), 4);
    many.push(0);
    assert_eq!(Factor::from_rows(2, &many).unwrap_err().number, Refusal::BAD_ROOM);
    // No generators: one element, and nothing of the list is read. Too many: 1, whatever is listed.
    for rows in [&[][..], &[7, 7, 7]] {
        assert_eq!(Factor::from_rows(0, rows).unwrap().element_count(), 1);
        assert_eq!(Factor::from_rows(9, rows).unwrap_err().number, Refusal::TOO_MANY_GENERATORS);
    }
}

#[test]
fn products_of_products() {
    let (s3, z2, z3) = (s3(), cycle(2), cycle(3));
    let all = Product::new([&s3, &z2, &z3, &s3]).unwrap();
    let nested = Product::product([&(&s3 * &z2).unwrap(), &Product::default(), &(&z3 * &s3).unwrap()]).unwrap();
    let again = (&(&s3 * &z2).unwrap() * &(&z3 * &s3).unwrap()).unwrap();
    let shared = Product::new(&all.factors().collect::<Vec<_>>()).unwrap();
    for p in [&nested, &again, &shared] {
        assert_eq!((p.factor_count(), p.element_count(), p.generator_count()), (4, 216, 6));
        assert!(p.factors().eq([s3.clone(), z2.clone(), z3.clone(), s3.clone()]));
        assert!(p.factors().rev().eq([s3.clone(), z3.clone(), z2.clone(), s3.clone()]));
        assert!(p.words().eq(all.words()));
        for e in all.elements() {
            assert_eq!((p.inverse(e), p.split(e), p.period(e)), (all.inverse(e), all.split(e), all.period(e)));
            assert_eq!((p.compose(e, Element(215)), p.powi(e, 5)), (all.compose(e, Element(215)), all.powi(e, 5)));
        }
        assert!(p.generators().map(|g| p.generator(g)).eq(all.generators().map(|g| all.generator(g))));
    }
    // Two factors with as many generators and elements are still two.
    let z6 = Factor::from_rows(2, &[1, 2, 3, 0, 0, 4, 5, 1, 2, 5, 4, 3]).unwrap();
    let two = Product::new([&s3, &z6, &s3, &z6]).unwrap();
    assert!(two.factors().eq([s3.clone(), z6.clone(), s3.clone(), z6.clone()]) && s3 != z6);
    // A factor of a product answers as it did alone, and is a product of its own again.
    let third = all.factors().nth(2).unwrap();
    assert_eq!((third.to_image(), third.compose(Element(1), Element(1))), (z3.to_image(), Ok(Element(2))));
    assert_eq!(Product::from(&third).flatten(), Ok(z3.clone()));
    assert_eq!(third.powi(Element(1), -1), Ok(Element(2)));
    // The product of none, both ways, and its factors.
    for none in [Product::default(), Product::product([]).unwrap(), (&Product::default() * &Product::default()).unwrap()] {
        assert_eq!((none.element_count(), none.generator_count(), none.factors().len()), (1, 0, 0));
        assert_eq!(none.flatten().unwrap().element_count(), 1);
    }
    // Eight factors are taken, and nine are not, whatever they are made of.
    let (four, five) = (Product::new([&z2; 4]).unwrap(), Product::new([&z2; 5]).unwrap());
    assert_eq!((&four * &four).unwrap().element_count(), 256);
    assert_eq!(says(&four * &five), "refused (15): there are more than 8 factors");
    assert_eq!(says(Product::product(std::iter::repeat_n(&four, 1000))), "refused (15): there are more than 8 factors");
    let large = Product::from(&Factor::from_orders(2, &[4096], 8192).unwrap());
    let two = (&large * &large).unwrap();
    assert_eq!(says(&two * &large), "refused (15): the product has more than 4,294,967,295 elements");
}

#[test]
fn flattened_with_and_without_a_room() {
    let z2 = cycle(2);
    let square = Product::new([&z2, &z2]).unwrap();
    assert_eq!(square.flatten(), square.flatten_with_room(4));
    assert_eq!(square.flatten_with_room(3).unwrap_err().number, Refusal::BEYOND_ROOM);
    for room in [0, 65_536] {
        assert_eq!(says(square.flatten_with_room(room)), "refused (4): the room is 0 or above 65,535");
    }
    let large = Factor::from_orders(2, &[4096], 8192).unwrap();
    // More elements than there can be in a factor, and more generators.
    assert_eq!(Product::new([&large, &large]).unwrap().flatten().unwrap_err().number, Refusal::SKIPS_AHEAD);
    let eight = Factor::from_orders(8, &[2; 28], 256).unwrap();
    assert_eq!((&eight * &eight).unwrap().flatten().unwrap_err(), Factor::from_rows(16, &[]).unwrap_err());
}

#[test]
fn subgroups_know_their_overgroup() {
    let over = Product::new([&s3(), &cycle(2)]).unwrap();
    let sub = Subgroup::new(&over, &[Element(3), Element(6)]).unwrap();
    assert_eq!((sub.overgroup().element_count(), sub.overgroup_count()), (12, 12));
    assert!(sub.overgroup().factors().eq(over.factors()));
    assert_eq!(sub.elements().map(|e| sub.to_overgroup(e).unwrap().0).collect::<HashSet<_>>(), HashSet::from([0, 3, 4, 6, 9, 10]));
    assert!(sub.elements().rev().eq([5, 4, 3, 2, 1, 0].map(Element)));
    assert_eq!(sub.generators().map(|g| sub.generator(g).unwrap()).collect::<Vec<_>>(), [Element(3), Element(6)]);
    assert_eq!(sub.generator(Generator(2)).unwrap_err().number, Refusal::OUT_OF_RANGE);
    // With all the room that there can be, with as much as is needed, and with less.
    for room in [6, 12, 65_535] {
        let same = Subgroup::new_with_room(&over, &[Element(3), Element(6)], room).unwrap();
        assert_eq!(same.factor(), sub.factor());
        assert!(over.elements().all(|x| same.to_subgroup(x) == sub.to_subgroup(x)));
        let told = Subgroup::from_predicate_with_room(&over, |x| sub.to_subgroup(x).unwrap().is_some(), room).unwrap();
        assert!(over.elements().all(|x| told.to_subgroup(x).unwrap().is_some() == sub.to_subgroup(x).unwrap().is_some()));
    }
    assert_eq!(Subgroup::new_with_room(&over, &[Element(3), Element(6)], 5).unwrap_err().number, Refusal::BEYOND_ROOM);
    for room in [0, 65_536] {
        let refused = Subgroup::from_predicate_with_room(&over, |_| unreachable!("the room is refused first"), room).unwrap_err();
        assert_eq!(refused.to_string(), "refused (4): the room is 0 or above 65,535");
        assert_eq!(Subgroup::new_with_room(&over, &[], room).unwrap_err(), refused);
    }
    assert_eq!(Subgroup::from_predicate_with_room(&over, |_| true, 11).unwrap_err().number, Refusal::BEYOND_ROOM);
    assert_eq!(Subgroup::from_predicate_with_room(&over, |_| true, 12).unwrap().element_count(), 12);
}

#[test]
fn subgroups_that_are_too_large() {
    let large = Factor::from_orders(2, &[4096], 8192).unwrap();
    let over = Product::new([&large, &large]).unwrap();
    let told = Subgroup::from_predicate(&over, |_| unreachable!("the overgroup is refused first"));
    for answer in [Subgroup::new(&over, &[Element(1)]), told] {
        assert_eq!(says(answer), "refused (15): the overgroup has more than 65,535 elements");
    }
    // Nine generators of a group that has as many: as members one too many, and so as a list.
    let nine = Product::new([&Factor::from_orders(8, &[2; 28], 256).unwrap(), &cycle(2)]).unwrap();
    assert_eq!(says(Subgroup::from_predicate(&nine, |_| true)), "refused (15): the members of the subgroup need a ninth generator");
    assert_eq!(Subgroup::from_predicate(&nine, |x| x.0 < 256).unwrap().generator_count(), 8);
    let listed: Vec<Element> = nine.generators().map(|g| nine.generator(g).unwrap()).collect();
    assert_eq!(says(Subgroup::new(&nine, &listed)), "refused (1): 9 generators, and at most 8 are taken");
    // What is multiplied on: the eighth factor and the ninth, and too many elements.
    let (z2, over) = (Product::from(&cycle(2)), Product::from(&large));
    let sub = Subgroup::new(&over, &[Element(1)]).unwrap();
    let seven = Product::product([&z2; 7]).unwrap();
    let most = [sub.multiplied_left(&seven).unwrap(), sub.multiplied_right(&seven).unwrap()];
    for more in most {
        assert_eq!((more.element_count(), more.overgroup().factor_count(), more.overgroup_count()), (256, 8, 1 << 20));
        for answer in [more.multiplied_left(&z2), more.multiplied_right(&z2)] {
            assert_eq!(says(answer), "refused (15): there are more than 8 factors");
        }
    }
    for answer in [sub.multiplied_left(&(&over * &over).unwrap()), sub.multiplied_right(&(&over * &over).unwrap())] {
        assert_eq!(says(answer), "refused (15): the product has more than 4,294,967,295 elements");
    }
}

#[test]
fn images_that_own_their_bytes() {
    let shared: Arc<[u8]> = Z2_IMAGE.into();
    let image = OwnedImage::try_from(shared.clone()).unwrap();
    assert_eq!(image.bytes().as_ptr(), shared.as_ptr());
    assert_eq!(image.clone().bytes().as_ptr(), shared.as_ptr());
    let others = [
        OwnedImage::try_from(Z2_IMAGE.to_vec()),
        OwnedImage::try_from(&Z2_IMAGE[..]),
        OwnedImage::check(Z2_IMAGE),
        Ok(Image::check(&Z2_IMAGE).unwrap().into()),
    ];
    for other in others {
        let other = other.unwrap();
        assert_eq!((&other, other.as_ref(), other.image().bytes()), (&image, &Z2_IMAGE[..], &Z2_IMAGE[..]));
        assert_eq!((other.element_count(), other.generator_count(), other.read()), (2, 1, Ok(cycle(2))));
        assert_eq!(other.walk(Element(1), &[Generator(0); 2]), Ok(Element(1)));
        assert_eq!(other.walk(Element(1), &[Generator(1)]).unwrap_err(), other.image().walk(Element(1), &[Generator(1)]).unwrap_err());
    }
    // Every byte changed, and every length: refused as the other image is, by each way to make one.
    for at in 0..Z2_IMAGE.len() {
        let mut damaged = Z2_IMAGE;
        damaged[at] ^= 1;
        for bytes in [&damaged[..], &Z2_IMAGE[..at]] {
            let no = Image::check(bytes).unwrap_err();
            assert_eq!(OwnedImage::try_from(bytes).unwrap_err(), no);
            assert_eq!(OwnedImage::try_from(bytes.to_vec()).unwrap_err(), no);
            assert_eq!(OwnedImage::check(Arc::<[u8]>::from(bytes)).unwrap_err(), no);
        }
    }
}

#[test]
fn refusals_in_words() {
    let over = Product::from(&s3());
    assert_eq!(says(Factor::from_rows(1, &[])), "refused (4): there are no rows");
    assert_eq!(says(Factor::from_rows(2, &[1])), "refused (4): the last row does not have a number for each generator");
    assert_eq!(says(Factor::from_rows(1, &[1])), "refused (5): there is no row for the element that element 0, generator 0 leads to");
    let tree = |rows: u32| Factor::from_rows(2, &(1..=2 * rows).collect::<Vec<_>>());
    assert_eq!(says(tree(65_535)), "refused (5): there is no row for the element that element 32767, generator 0 leads to");
    let most = "refused (5): element 32767, generator 0 leads to one element more than the 65,535 that there may be";
    assert_eq!([says(tree(65_536)), says(tree(70_000))], [most; 2]);
    let beyond = [0, 0, 0, 8, 1, 1, 0, 2, 0, 1, 0, 2];
    let images = [
        says(Image::check(&beyond)),
        says(OwnedImage::check(beyond)),
        says(OwnedImage::try_from(&beyond[..])),
        says(Factor::from_image(&beyond)),
        Checker::new(2).check(&beyond).unwrap_err().to_string(),
        Checker::new(2).check_owned(beyond.into()).unwrap_err().to_string(),
    ];
    assert_eq!(images, ["refused (5): element 1, generator 0 leads to one element more than the image has"; 6]);
    let square = (&cycle(2) * &cycle(2)).unwrap();
    assert_eq!(says(square.flatten_with_room(3)), "refused (5): an element beyond the room is needed at element 1, generator 1");
    let fixed = "refused (9): a fixed point or a wrong row at element 0, generator 0 (or a wrong count there, of 0 generators)";
    assert_eq!(says(Factor::from_rows(1, &[0])), fixed);
    assert_eq!(says(Factor::from_orders(2, &[3], 5)), "refused (5): an element beyond the room is needed at element 3, generator 0");
    assert_eq!(says(Factor::from_orders(2, &[3], 0)), "refused (4): the room is 0 or above 65,535");
    assert_eq!(says(Factor::from_compose_fn(2, |e, _| e, 65_536)), "refused (4): the room is 0 or above 65,535");
    assert_eq!(says(Builder::new(2, 0)), "refused (4): the room is 0 or above 65,535");
    assert_eq!(says(over.join(&[])), "refused (4): there are fewer digits than factors");
    let mut builder = Builder::new(1, 1).unwrap();
    assert_eq!((builder.element_count(), builder.generator_count()), (1, 1));
    assert_eq!(builder.add(Element(0), Generator(0)).unwrap_err().number, Refusal::BEYOND_ROOM);
    assert_eq!((builder.element_count(), builder.generator_count()), (0, 0));
    for no in [builder.add(Element(0), Generator(0)).unwrap_err(), builder.set(Element(0), Generator(0), Element(0)).unwrap_err()] {
        assert_eq!(no.to_string(), "refused (17): an earlier refusal has ended this build");
    }
    assert_eq!(says(builder.build()), "refused (17): an earlier refusal has ended this build");
    assert_eq!(says(Factor::named(&[0; 33]).from_orders(2, &[3], 6)), "refused (18): the name has more than 32 bytes");
    let name = Product::from(&Factor::named("Z2").from_rows(1, &[1, 0]).unwrap());
    assert_eq!(says(name.write_name(&mut [0; 1])), "refused (18): the joined name is longer than the buffer");
    // Equal refusals of two calls are equal, and hash as one, in whatever words.
    let two = [Factor::from_rows(1, &[]).unwrap_err(), over.join(&[]).unwrap_err()];
    assert_eq!(two[0], two[1]);
    assert_eq!(HashSet::from(two).len(), 1);
    assert_ne!(two[0], Factor::from_rows(1, &[1]).unwrap_err());
    assert_ne!(over.step(Element(6), Generator(0)).unwrap_err(), over.step(Element(0), Generator(2)).unwrap_err());
    assert_eq!(format!("{:?}", two[0]), "Refusal { number: 4, places: [0, 0, 0] }");
}

/// Each constant is the number of a call that is refused by it.
#[test]
fn refusals_by_name() {
    let (z2, over) = (cycle(2), Product::from(&s3()));
    let number = |answer: Result<Factor, Refusal>| answer.unwrap_err().number;
    assert_eq!(number(Factor::from_orders(9, &[], 1)), Refusal::TOO_MANY_GENERATORS);
    assert_eq!(number(Factor::from_orders(2, &[], 1)), Refusal::ORDER_COUNT);
    assert_eq!(number(Factor::from_orders(2, &[1], 1)), Refusal::BAD_ORDER);
    assert_eq!(number(Factor::from_orders(2, &[2], 0)), Refusal::BAD_ROOM);
    assert_eq!(number(Factor::from_orders(2, &[2], 3)), Refusal::BEYOND_ROOM);
    assert_eq!(number(Factor::from_orders(2, &[4097], 8194)), Refusal::WORD_TOO_LONG);
    assert_eq!(number(Factor::from_rows(1, &[2, 0])), Refusal::SKIPS_AHEAD);
    assert_eq!(number(Factor::from_rows(1, &[1, 1])), Refusal::MISSING_STEP);
    assert_eq!(number(Factor::from_rows(1, &[0])), Refusal::FIXED_POINT);
    assert_eq!(number(Factor::from_rows(2, &[1, 2, 3, 3, 0, 0, 2, 1])), Refusal::BAD_INVERSE);
    assert_eq!(number(Factor::from_rows(2, &[1, 1, 0, 0])), Refusal::IDENTITY_ROW);
    assert_eq!(number(Factor::from_rows(4, &CROSSED)), Refusal::NO_GROUP);
    assert_eq!(cycle(3).check(&[]).unwrap_err().number, Refusal::RELATION_FAILS);
    assert_eq!(over.inverse(Element(6)).unwrap_err().number, Refusal::OUT_OF_RANGE);
    assert_eq!(Product::new([&z2; 9]).unwrap_err().number, Refusal::TOO_LARGE);
    assert_eq!(number(Factor::from_image(&[])), Refusal::BAD_IMAGE);
    let mut ended = Builder::new(1, 1).unwrap();
    ended.add(Element(0), Generator(0)).unwrap_err();
    assert_eq!(number(ended.build()), Refusal::BAD_HANDLE);
    assert_eq!(number(Factor::named(&[0; 33]).from_rows(1, &[1, 0])), Refusal::NAME_TOO_LONG);
    // The order of refusals in a list of digits: 14 at its place, then 4.
    let no = (&z2 * &z2).unwrap().join(&[Element(2)]).unwrap_err();
    assert_eq!((no.number, no.places), (Refusal::OUT_OF_RANGE, [0, 0, 0]));
}

#[test]
fn what_is_printed_is_short() {
    let (f, over) = (Factor::from_orders(3, &[5, 2, 3], 120).unwrap(), Product::from(&s3()));
    let image = f.to_image().unwrap();
    let checked = Image::check(&image).unwrap();
    assert_eq!(format!("{f:?}"), "Factor { generators: 3, elements: 120 }");
    assert_eq!(format!("{:?}", Product::new([&f, &f]).unwrap()), "Product { factors: 2, generators: 6, elements: 14400 }");
    let z2 = Factor::named(b"Z2\"\xff").from_orders(1, &[], 2).unwrap();
    assert_eq!(format!("{z2:?}"), r#"Factor { name: "Z2\"\xff", generators: 1, elements: 2 }"#);
    assert_eq!(
        format!("{:?}", Product::new([&z2, &f]).unwrap()),
        r#"Product { name: "Z2\"\xff x ", factors: 2, generators: 4, elements: 240 }"#
    );
    assert_eq!(format!("{:?}", Factor::named("Z").builder(2, 99).unwrap()), r#"Builder { name: "Z", generators: 2, elements: 1 }"#);
    let sub = Subgroup::new(&over, &[Element(3)]).unwrap();
    assert_eq!(format!("{sub:?}"), "Subgroup { generators: 1, elements: 3, overgroup_elements: 6 }");
    assert_eq!(format!("{:?}", Builder::new(2, 99).unwrap()), "Builder { generators: 2, elements: 1 }");
    assert_eq!(format!("{checked:?}"), "Image { generators: 3, elements: 120 }");
    assert_eq!(format!("{:?}", OwnedImage::from(checked)), "OwnedImage { generators: 3, elements: 120 }");
    assert_eq!((Element(3).to_string(), Generator(4).to_string()), ("3".into(), "4".into()));
}
