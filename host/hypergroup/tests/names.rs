//! Names: both sides of 32 bytes and of each joined length, 0 to 8 factors, what has a name and what has none, forged lengths, and the order of the refusals.
//! Order 1 of docs/02-change-requests.md says what is expected.
use hypergroup::raw::{self, Handle, Handles, Name};
use hypergroup::{Builder, Element, Factor, Generator, Naming, Product, Refusal, Subgroup};

const S3: [u32; 12] = [1, 2, 0, 3, 4, 0, 5, 1, 2, 5, 3, 4];

/// What stands in every buffer before a call, so that a store shows.
const OLD: u32 = 0xA5A5_A5A5;
const BYTE: u8 = 0xA5;

/// Names with every byte that there is, among them no text, the ends of text, and what stands between names.
fn names() -> Vec<Vec<u8>> {
    let mut all: Vec<Vec<u8>> = (0..8).map(|k| (32 * k..=32 * k + 31).collect()).collect();
    all.extend((0..=32).map(|length| vec![b'n'; length]));
    all.extend([vec![0], vec![0; 32], vec![255; 32], b" x ".to_vec(), b"a\0b".to_vec(), "ℤ₂".into()]);
    all
}

/// A name as it is kept: document 02, "0 to 32 bytes, held by value"; the bytes behind it are 0.
fn kept(name: &[u8]) -> Name {
    let mut bytes = [0; 32];
    bytes[..name.len()].copy_from_slice(name);
    Name { bytes, length: name.len() as u8 }
}

/// The names in order, with " x " between each two.
fn joined<T: AsRef<[u8]>>(names: &[T]) -> Vec<u8> {
    names.iter().map(AsRef::as_ref).collect::<Vec<&[u8]>>().join(&b" x "[..])
}

/// S3 in a table by the call that is given, whose name is kept.
fn in_table(name: &[u8]) -> (Vec<u32>, Handle, Name) {
    let (mut table, mut work) = (vec![OLD; 49], vec![OLD; 192]);
    let (handle, name) = raw::composed_named(&mut table, 1, &mut work, &S3, 2, 6, name).unwrap();
    (table, handle, name)
}

#[test]
fn a_name_is_kept_and_nothing_else_changes() {
    for name in names() {
        let plain = in_table(b"");
        let other = in_table(&name);
        assert_eq!(other.2, kept(&name));
        assert_eq!((&other.0, other.1), (&plain.0, plain.1));
        let (mut table, mut work) = (vec![OLD; 49], vec![OLD; 193]);
        assert_eq!(raw::enumerate_named(&mut table, 1, &mut work, &[3], 2, 6, &name), Ok((plain.1, kept(&name))));
        assert_eq!((&table, &work[..192], work[192]), (&plain.0, &[0; 192][..], OLD));
        let mut begun = [vec![OLD; 49], vec![OLD; 49]];
        let b = raw::begin_named(&mut begun[0], 1, 6, 2, &name).unwrap();
        assert_eq!(b, (raw::begin(&mut begun[1], 1, 6, 2).unwrap(), kept(&name)));
        assert_eq!(begun[0], begun[1]);
    }
}

/// A factor by each way to make one with a name.
fn made(name: Naming<'_>) -> [Result<Factor, Refusal>; 4] {
    let built = name.builder(1, 3).and_then(|mut b| {
        let one = b.add(Element(0), Generator(0))?;
        let two = b.add(one, Generator(0))?;
        b.set(two, Generator(0), Element(0))?;
        b.build()
    });
    let turned = |e: Element, _| Element((e.0 + 1) % 3);
    [built, name.from_rows(1, &[1, 2, 0]), name.from_compose_fn(1, turned, 9), name.from_orders(2, &[3], 9)]
}

#[test]
fn what_has_a_name_and_what_has_none() {
    for name in names() {
        for (factor, plain) in made(Factor::named(&name)).into_iter().zip(made(Factor::named(""))) {
            let (factor, plain) = (factor.unwrap(), plain.unwrap());
            assert_eq!((factor.name(), factor.clone().name(), plain.name()), (&name[..], &name[..], &b""[..]));
            // They are the same group, and say the same bytes.
            assert_eq!(factor, plain);
            assert_eq!(factor.to_image(), plain.to_image());
            assert_eq!(Factor::from_image(&factor.to_image().unwrap()).unwrap().name(), b"");

            let pair = Product::new([&factor, &plain]).unwrap();
            assert_eq!(pair.name(), joined(&[&name[..], b""]));
            assert!(pair.factors().map(|f| f.name().to_vec()).eq([name.clone(), vec![]]));
            let four = (&pair * &pair).unwrap();
            assert_eq!(four.name(), joined(&[&name[..], b"", &name, b""]));
            assert_eq!(Product::product([&pair, &Product::from(&factor)]).unwrap().name(), joined(&[&name[..], b"", &name]));
            assert_eq!(Product::new(&four.factors().rev().collect::<Vec<_>>()).unwrap().name(), joined(&[b"", &name[..], b"", &name]));
            assert_eq!((&factor * &plain).unwrap().name(), pair.name());
            let twice = Product::new([&factor, &Factor::named("other").from_rows(1, &[1, 0]).unwrap(), &factor]).unwrap();
            assert_eq!(twice.name(), joined(&[&name[..], b"other", &name]));

            let one = Product::from(&factor);
            assert_eq!((one.name(), one.flatten().unwrap().name()), (name.clone(), &b""[..]));
            let sub = Subgroup::new(&one, &[Element(1)]).unwrap();
            assert_eq!((sub.factor().name(), sub.overgroup().name()), (&b""[..], name.clone()));
            let more = sub.multiplied_left(&pair).unwrap().multiplied_right(&one).unwrap();
            assert_eq!((more.factor().name(), more.overgroup().name()), (&b""[..], joined(&[&name[..], b"", &name, &name])));
        }
    }
    // Names that differ, so that their order shows.
    let [a, b, c, d] = ["a", "b", "c", "d"].map(|x| Product::from(&Factor::named(x).from_rows(1, &[1, 0]).unwrap()));
    let pair = (&a * &b).unwrap();
    assert_eq!(pair.flatten().unwrap().name(), b"");
    let sub = Subgroup::new(&c, &[Element(1)]).unwrap().multiplied_left(&pair).unwrap();
    assert_eq!(sub.overgroup().name(), b"a x b x c");
    assert_eq!(sub.multiplied_right(&d).unwrap().overgroup().name(), b"a x b x c x d");
    assert_eq!(Subgroup::from_predicate(&pair, |e| e.0 < 2).unwrap().factor().name(), b"");
    // What is made without one has none.
    assert_eq!(Builder::new(1, 3).unwrap().name(), b"");
    assert_eq!(Factor::named("Z3").builder(1, 3).unwrap().name(), b"Z3");
    assert_eq!(Factor::from_orders(1, &[], 2).unwrap().name(), b"");
    assert_eq!(Factor::from_rows(1, &[1, 0]).unwrap().name(), b"");
    assert_eq!(Factor::from_compose_fn(0, |e, _| e, 1).unwrap().name(), b"");
    assert_eq!(Product::default().name(), b"");
}

/// Every question that the safe types answer, of two factors that differ in name alone, and of products and subgroups of them.
#[test]
fn no_question_looks_at_a_name() {
    let told = |name: &str| {
        let f = Factor::named(name).from_orders(2, &[3], 6).unwrap();
        let p = Product::new([&f, &Factor::named(name).from_rows(1, &[1, 0]).unwrap(), &f]).unwrap();
        let s = Subgroup::new(&p, &[Element(3), Element(6)]).unwrap();
        let q = Subgroup::from_predicate(&p, |e| e.0 % 2 == 0);
        let mut said = vec![format!("{:?} {:?} {:?} {:?}", f.check(&[3]), f.check(&[2]), f.to_image(), f.words().collect::<Vec<_>>())];
        for a in f.elements() {
            said.push(format!("{:?} {:?} {:?} {:?} {:?}", f.inverse(a), f.word(a), f.word_length(a), f.period(a), f.powi(a, -5)));
            said.extend(f.elements().map(|b| format!("{:?} {:?}", f.compose(a, b), f.conjugate(a, b))));
            said.extend(f.generators().map(|g| format!("{:?} {:?} {:?}", f.generator(g), f.step(a, g), f.walk(a, &[g, g]))));
        }
        for a in p.elements().chain([Element(72)]) {
            said.push(format!("{:?} {:?} {:?} {:?}", p.inverse(a), p.word(a), p.split(a), p.powi(a, -5)));
            said.push(format!("{:?} {:?} {:?}", p.compose(a, Element(71)), p.conjugate(Element(40), a), p.project(2, a)));
            said.push(format!("{:?} {:?} {:?}", p.word_length(a), p.period(a), p.walk(a, &[Generator(4), Generator(0)])));
            said.push(format!("{:?} {:?} {:?}", s.to_subgroup(a), s.to_overgroup(a), p.step(a, Generator(2))));
            said.push(format!("{:?} {:?}", p.inject(2, a), p.join(&[a, Element(1), Element(5)])));
        }
        said.extend(p.generators().map(|g| format!("{:?} {:?}", p.generator(g), s.generator(g))));
        said.push(format!("{:?} {:?} {:?}", p.flatten(), s.factor(), p.words().count()));
        let (left, right) = (s.multiplied_left(&p), s.multiplied_right(&p));
        said.extend(
            [q, left, right].map(|s| s.map_or_else(|no| no.to_string(), |s| format!("{:?} {:?}", s.generator_count(), s.factor()))),
        );
        said
    };
    let plain = told("");
    for name in ["a", "S3", "an x b", "exactly thirty-two bytes of name"] {
        assert_eq!(told(name), plain);
    }
}

/// What a call says of a name that is too long, where its arguments are right and where they are not: its own 1 to 4, else 18, with every buffer as it was.
fn long_by<T>(right: &[u32], call: impl Fn(&[u8], &mut [u32], &mut [u32]) -> raw::Answer<T>, sizes: [usize; 2]) {
    let run = |length: usize| {
        let (mut t, mut w) = (vec![OLD; sizes[0]], vec![OLD; sizes[1]]);
        let number =
            call(&vec![b'n'; length], &mut t, &mut w).err().map_or([0; 4], |no| [no.number, no.places[0], no.places[1], no.places[2]]);
        (number, t.iter().chain(&w).all(|&x| x == OLD))
    };
    let (fits, _) = run(32);
    assert_eq!(fits, right);
    for length in [33, 34, 64, 255, 256, 257, 288, 65_536 + 3] {
        let (number, untouched) = run(length);
        assert!(untouched, "{right:?} with {length} bytes");
        let early = (1..=4).contains(&right[0]);
        assert_eq!(number, if early { fits } else { [18, 0, 0, 0] }, "{right:?} with {length} bytes");
    }
}

#[test]
fn a_name_too_long_is_after_1_to_4_and_before_5_to_12() {
    let composed = |right: &[u32], rows: &[u32], n: u8, room: u32, sizes| {
        long_by(right, |name, t, w| raw::composed_named(t, 1, w, rows, n, room, name), sizes);
    };
    composed(&[0; 4], &S3, 2, 6, [49, 192]);
    composed(&[0; 4], &S3, 2, 6, [60, 200]);
    composed(&[1, 9, 0, 0], &S3, 9, 0, [49, 192]);
    composed(&[4, 0, 0, 0], &S3, 2, 0, [49, 192]);
    composed(&[4, 0, 0, 0], &S3, 2, 65_536, [49, 192]);
    composed(&[4, 0, 0, 0], &S3, 2, 6, [48, 192]);
    composed(&[4, 0, 0, 0], &S3, 2, 6, [49, 191]);
    composed(&[4, 0, 0, 0], &S3[..11], 2, 6, [49, 192]);
    composed(&[5, 3, 0, 0], &S3[..10], 2, 5, [41, 160]);
    let line: Vec<u32> = (1..=4097).chain([0]).collect();
    composed(&[6, 4096, 0, 0], &line, 1, 4098, [1 + 6 * 4098, 10 * 4098]);
    composed(&[7, 0, 0, 2], &[2, 0], 1, 2, [13, 20]);
    composed(&[8, 0, 0, 0], &[1, 1], 1, 2, [13, 20]);
    composed(&[9, 0, 0, 0], &[0], 1, 1, [7, 10]);
    composed(&[10, 1, 2, 2], &[1, 2, 3, 3, 0, 0, 2, 1], 2, 4, [33, 128]);
    composed(&[11, 1, 0, 0], &[1, 1, 0, 0], 2, 2, [17, 64]);
    composed(&[12, 0, 0, 0], &[1, 2, 0, 3, 3, 0, 4, 4, 2, 1], 2, 5, [41, 160]);

    let enumerated = |right: &[u32], orders: &[u32], n: u8, room: u32, sizes| {
        long_by(right, |name, t, w| raw::enumerate_named(t, 1, w, orders, n, room, name), sizes);
    };
    enumerated(&[0; 4], &[3], 2, 6, [49, 192]);
    enumerated(&[1, 9, 0, 0], &[3], 9, 0, [49, 192]);
    enumerated(&[2, 0, 0, 0], &[], 2, 0, [49, 192]);
    enumerated(&[2, 0, 0, 0], &[1, 1], 2, 6, [49, 192]);
    enumerated(&[3, 1, 0, 0], &[2, 1, 2], 3, 0, [49, 192]);
    enumerated(&[3, 0, 0, 0], &[32_768], 2, 6, [49, 192]);
    enumerated(&[4, 0, 0, 0], &[3], 2, 0, [49, 192]);
    enumerated(&[4, 0, 0, 0], &[3], 2, 6, [48, 192]);
    enumerated(&[4, 0, 0, 0], &[3], 2, 6, [49, 191]);
    enumerated(&[5, 3, 0, 0], &[3], 2, 5, [41, 160]);
    enumerated(&[6, 8191, 0, 0], &[4097], 2, 8194, [1 + 8 * 8194, 32 * 8194]);

    let begun = |right: &[u32], n: u8, room: u32, size| {
        long_by(right, |name, t, _| raw::begin_named(t, 1, room, n, name), [size, 0]);
    };
    begun(&[0; 4], 1, 2, 13);
    begun(&[1, 9, 0, 0], 9, 0, 13);
    begun(&[4, 0, 0, 0], 1, 0, 13);
    begun(&[4, 0, 0, 0], 1, 65_536, 13);
    begun(&[4, 0, 0, 0], 1, 2, 12);
}

#[test]
fn a_name_too_long_by_the_safe_types() {
    let long = [b'n'; 33];
    let (short, long) = (Factor::named(&long[..32]), Factor::named(&long));
    assert!(made(short).iter().all(Result::is_ok));
    for answer in made(long) {
        let no = answer.unwrap_err();
        assert_eq!((no.number, no.places), (Refusal::NAME_TOO_LONG, [0; 3]));
        assert_eq!(no.to_string(), "refused (18): the name has more than 32 bytes");
    }
    let number = |answer: Result<Factor, Refusal>| answer.unwrap_err().number;
    assert_eq!(number(long.from_orders(9, &[], 0)), 1);
    assert_eq!(number(long.from_orders(2, &[], 0)), 2);
    assert_eq!(number(long.from_orders(2, &[1], 0)), 3);
    assert_eq!(number(long.from_orders(2, &[3], 0)), 4);
    assert_eq!(number(long.from_orders(2, &[3], 65_536)), 4);
    assert_eq!([number(short.from_orders(2, &[3], 5)), number(long.from_orders(2, &[3], 5))], [5, 18]);
    assert_eq!([number(short.from_orders(2, &[4097], 8194)), number(long.from_orders(2, &[4097], 8194))], [6, 18]);
    let told = |naming: Naming<'_>, n: u8, room: u32, rows: &[u32]| {
        naming.from_compose_fn(n, |e, g| Element(rows[usize::from(n) * e.0 as usize + usize::from(g.0)]), room)
    };
    let line: Vec<u32> = (1..=4097).chain([0]).collect();
    for (refused, n, rows) in [
        (5, 2, &S3[..10]),
        (6, 1, &line[..]),
        (7, 1, &[2, 0]),
        (8, 1, &[1, 1]),
        (9, 1, &[0]),
        (10, 2, &[1, 2, 3, 3, 0, 0, 2, 1]),
        (11, 2, &[1, 1, 0, 0]),
        (12, 2, &[1, 2, 0, 3, 3, 0, 4, 4, 2, 1]),
    ] {
        let room = rows.len() as u32 / u32::from(n);
        assert_eq!([number(short.from_rows(n, rows)), number(told(short, n, room, rows))], [refused; 2]);
        // Nothing is asked of a function then.
        assert_eq!([number(long.from_rows(n, rows)), number(told(long, n, room, &[]))], [18; 2]);
    }
    for (n, rows, refused) in [(9, &[][..], 1), (1, &[], 4), (2, &[1], 4), (9, &[1], 1)] {
        assert_eq!(number(long.from_rows(n, rows)), refused);
    }
    for (n, room, refused) in [(9, 0, 1), (1, 0, 4), (1, 65_536, 4), (0, 1, 18), (0, 65_535, 18), (8, 65_535, 18)] {
        assert_eq!(number(told(long, n, room, &[])), refused);
        assert_eq!(long.builder(n, room).unwrap_err().number, refused);
    }
}

/// A table, the handles of a product in it, and a name for each.
type Listed = (Vec<u32>, Handles, Vec<Name>);

/// S3 so many times, and a name for each.
fn times(names: &[Vec<u8>]) -> Listed {
    let (table, handle, _) = in_table(b"");
    (table, std::iter::repeat_n(handle, names.len()).collect(), names.iter().map(|name| kept(name)).collect())
}

/// What a buffer of so many bytes gets: the answer, and all that it holds then.
fn written((table, handles, names): &Listed, size: usize) -> (raw::Answer<u32>, Vec<u8>) {
    let mut out = vec![BYTE; size];
    (raw::joined(table, handles, names, &mut out), out)
}

/// A refusal that has no place.
fn numbered(answer: raw::Answer<u32>) -> Result<u32, u32> {
    answer.map_err(|no| if no.places == [0; 3] { no.number } else { unreachable!("{no:?}") })
}

/// The joined name at the start and what is behind it as it was, in each size of buffer from none to some bytes more; one that is shorter is 18, with no byte written.
fn joins(names: &[Vec<u8>]) {
    let (whole, product) = (joined(names), times(names));
    for size in 0..whole.len() + 4 {
        let (answer, out) = written(&product, size);
        if size < whole.len() {
            assert_eq!((numbered(answer), out), (Err(18), vec![BYTE; size]));
        } else {
            assert_eq!(answer, Ok(whole.len() as u32));
            assert_eq!((&out[..whole.len()], &out[whole.len()..]), (&whole[..], &vec![BYTE; size - whole.len()][..]));
        }
    }
    assert_eq!(raw::joined_part(&product.0, &product.1, &product.2), whole);

    let factors: Vec<Factor> = names.iter().map(|name| Factor::named(name).from_orders(1, &[], 2).unwrap()).collect();
    let safe = Product::new(&factors).unwrap();
    assert_eq!(safe.name(), whole);
    let mut out = vec![BYTE; whole.len() + 1];
    assert_eq!(safe.write_name(&mut out), Ok(whole.len()));
    assert_eq!((&out[..whole.len()], out[whole.len()]), (&whole[..], BYTE));
    if let Some(less) = whole.len().checked_sub(1) {
        let no = safe.write_name(&mut vec![0; less]).unwrap_err();
        assert_eq!(no.to_string(), "refused (18): the joined name is longer than the buffer");
    }
}

#[test]
fn joined_names() {
    let own = names();
    for name in &own {
        joins(std::slice::from_ref(name));
    }
    for count in 0..=8 {
        joins(&vec![vec![]; count]);
        joins(&vec![vec![b'n'; 32]; count]);
        joins(&own[..count]);
        joins(&own[own.len() - count..]);
        // Names of other lengths, and empty ones between them and at both ends.
        for shift in 0..9 {
            joins(&(0..count).map(|k| vec![b'a' + k as u8; 4 * ((k + shift) % 9)]).collect::<Vec<_>>());
        }
    }
    assert_eq!(joined(&vec![vec![b'n'; 32]; 8]).len(), 277);
}

/// 17 for a length above 32, a list without a name for each factor, and a handle that does not fit; then 15; then 18. Nothing is written.
#[test]
fn refusals_of_a_joined_name() {
    let eight = times(&vec![b"S3".to_vec(); 8]);
    let refused = |product: &Listed, number: u32| {
        for size in [0, 36, 37, 300] {
            let (answer, out) = written(product, size);
            assert_eq!((numbered(answer), out), (Err(number), vec![BYTE; size]));
        }
        assert_eq!(raw::joined_part(&product.0, &product.1, &product.2), b"");
    };
    let nine = |(table, handles, names): &Listed| {
        let mut more = handles.clone();
        let (_, handle, name) = in_table(b"S3");
        more.push(handle);
        (table.clone(), more, [&names[..], &[name]].concat())
    };
    for at in 0..8 {
        for length in 0..=255 {
            let mut forged = eight.clone();
            forged.2[at].length = length;
            if length > 32 {
                refused(&forged, 17);
                refused(&nine(&forged), 17);
                // A factor that does not count has a name that nobody looks at.
                forged.1.count = at as u8;
                assert_eq!(written(&forged, 300).0, Ok(joined(&vec![b"S3"; at]).len() as u32));
            } else {
                let told: Vec<&[u8]> = forged.2.iter().map(Name::as_bytes).collect();
                assert_eq!(told[at], &forged.2[at].bytes[..length.into()]);
                let (answer, out) = written(&forged, 300);
                assert_eq!(&out[..answer.unwrap() as usize], joined(&told));
                assert_eq!(raw::joined_part(&forged.0, &forged.1, &forged.2), joined(&told));
            }
        }
        // A list that is too short, by names.
        let mut short = eight.clone();
        short.2.truncate(at);
        refused(&short, 17);
        short.1.count = 9;
        refused(&short, 17);
        short.1.count = at as u8;
        assert_eq!(written(&short, 300).0, Ok(joined(&vec![b"S3"; at]).len() as u32));
        // A handle that does not fit.
        let mut forged = eight.clone();
        forged.1.numbers[5 * at] = 2;
        refused(&forged, 17);
        refused(&nine(&forged), 17);
    }
    // Nine factors, and 255, of which the first eight are looked at; and too many elements: 15, before 18.
    refused(&nine(&eight), 15);
    let mut many = eight.clone();
    for count in [9, 10, 255] {
        many.1.count = count;
        refused(&many, 15);
    }
    let (mut table, mut work) = (vec![0; raw::table_need(8, 256)], vec![0; raw::work_need(8, 256)]);
    let (large, name) = raw::enumerate_named(&mut table, 0, &mut work, &[2; 28], 8, 256, b"S3").unwrap();
    refused(&(table.clone(), [large; 4].into_iter().collect(), vec![name; 4]), 15);
    let three = (table.clone(), [large; 3].into_iter().collect(), vec![name; 3]);
    assert_eq!(written(&three, 12).0, Ok(12));
    refused(&(table, [large; 4].into_iter().collect(), vec![Name { length: 33, ..name }; 4]), 17);
    // What stands behind a name changes nothing.
    let mut altered = eight.clone();
    altered.2.iter_mut().for_each(|name| name.bytes[2..].fill(255));
    assert_eq!(written(&altered, 40), written(&eight, 40));
    // Of no factors: no byte, from no list, into no buffer.
    assert_eq!(raw::joined(&[], &Handles::default(), &[], &mut []), Ok(0));
    assert_eq!(raw::joined_part(&[], &Handles::default(), &[]), b"");
}
