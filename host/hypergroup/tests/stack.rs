//! Every call, on the longest words that there can be, in a thread with as much stack as host/hypergroup.h asks for: no call needs more for a longer word.
use hypergroup::raw::{self, Handles};
use hypergroup::{Builder, Element, Factor, Generator, Image, Product, Subgroup};
use std::collections::HashMap;

/// What host/hypergroup.h asks for.
const STACK: usize = 64 * 1024;

#[test]
fn header() {
    let header = include_str!("../../hypergroup.h");
    assert!(header.contains(&format!("{} KB of stack", STACK / 1024)), "host/hypergroup.h asks for another stack than is tested");
}

/// The order of the turn in the dihedral group: its longest word has as many letters, and one of this order with a Z3 two more, 4,096.
const ORDER: u32 = 4094;

/// A turn, whether it is a reflection, and the element of Z3.
type Member = (u32, bool, u32);

/// A member by a generator: two reflections, whose product is the turn, and the element of order 3.
fn by((turn, flip, z): Member, g: u8) -> Member {
    match (g, flip) {
        (0, _) => (turn, !flip, z),
        (1, false) => ((turn + ORDER - 1) % ORDER, true, z),
        (1, true) => ((turn + 1) % ORDER, false, z),
        _ => (turn, flip, (z + 1) % 3),
    }
}

/// The rows of the dihedral group by Z3 in the numbering of first appearance, the members by their numbers, and the numbers of the members.
fn dihedral_by_z3() -> (Vec<u32>, Vec<Member>, HashMap<Member, u32>) {
    let mut members = vec![(0, false, 0)];
    let mut numbers = HashMap::from([(members[0], 0)]);
    let mut rows = Vec::new();
    let mut e = 0;
    while e < members.len() {
        for g in 0..3 {
            let next = by(members[e], g);
            rows.push(*numbers.entry(next).or_insert_with(|| {
                members.push(next);
                members.len() as u32 - 1
            }));
        }
        e += 1;
    }
    (rows, members, numbers)
}

/// A call in a thread with that much stack.
fn in_thread<T: Send>(call: impl FnOnce() -> T + Send) -> T {
    std::thread::scope(|scope| std::thread::Builder::new().stack_size(STACK).spawn_scoped(scope, call).unwrap().join().unwrap())
}

/// The group, as one factor; its members; and the member whose word has 4,096 letters with the last number.
struct Long {
    factor: Factor,
    rows: Vec<u32>,
    members: Vec<Member>,
    numbers: HashMap<Member, u32>,
    last: Element,
}

fn long() -> Long {
    let (rows, members, numbers) = dihedral_by_z3();
    assert_eq!(members.len(), 24_564);
    let factor = in_thread(|| Factor::from_rows(3, &rows)).unwrap();
    let last = factor.elements().rev().find(|&e| factor.word_length(e) == Ok(4096)).unwrap();
    Long { factor, rows, members, numbers, last }
}

impl Long {
    /// The product of two elements by their members: what is not a reflection turns on, and what follows a reflection turns back.
    fn times(&self, a: Element, b: Element) -> Element {
        let ((k, f, z), (l, g, y)) = (self.members[a.0 as usize], self.members[b.0 as usize]);
        let turn = if f { k + ORDER - l } else { k + l } % ORDER;
        Element(self.numbers[&(turn, f != g, (z + y) % 3)])
    }
}

#[test]
fn questions() {
    let long = long();
    let (f, last) = (&long.factor, long.last);
    let elements = [0, 1, 12_345, 24_559, 24_560, 24_561, 24_562, 24_563].map(Element).into_iter().chain([last]);
    for a in elements.clone() {
        for b in elements.clone() {
            assert_eq!(in_thread(|| f.compose(a, b)), Ok(long.times(a, b)));
            let back = in_thread(|| f.inverse(a)).unwrap();
            assert_eq!(in_thread(|| f.conjugate(a, b)), Ok(long.times(long.times(a, b), back)));
        }
        let word = in_thread(|| f.word(a)).unwrap();
        assert_eq!(in_thread(|| f.word_length(a)), Ok(word.len() as u32));
        assert_eq!(in_thread(|| f.walk(Element(0), &word)), Ok(a));
    }
    for g in f.generators() {
        assert_eq!(in_thread(|| f.generator(g)), in_thread(|| f.step(Element(0), g)));
    }
    assert_eq!(in_thread(|| f.check(&[ORDER, 6, 6])).unwrap_err().number, 13);
}

#[test]
fn raw_questions() {
    let long = long();
    let (mut table, mut work) = (vec![0; raw::table_need(3, 24_564)], vec![0; raw::work_need(3, 24_564)]);
    let (h, name) = in_thread(|| raw::composed_named(&mut table, 0, &mut work, &long.rows, 3, 24_564, &[b'n'; 32])).unwrap();
    assert_eq!(in_thread(|| raw::composed(&mut table, 0, &mut work, &long.rows, 3, 24_564)), Ok(h));
    assert_eq!(in_thread(|| raw::count(&table, h)), Ok(24_564));
    let part = in_thread(|| raw::part(&table, h, long.last.0));
    assert_eq!(part, long.factor.word(long.last).unwrap().iter().map(|g| g.0).collect::<Vec<_>>());
    assert_eq!(part.len(), 4096);
    let one: Handles = [h].into_iter().collect();
    assert_eq!(in_thread(|| raw::product(&table, &one, &one)).unwrap(), 2);
    // The calls that have no name are not those of the safe types.
    let (mut other, mut begun) = (table.clone(), table.clone());
    assert_eq!(in_thread(|| raw::enumerate(&mut other, 0, &mut work, &[4096], 2, 8192)).unwrap().elements, 8192);
    assert_eq!(in_thread(|| raw::begin(&mut begun, 0, 24_564, 3)).unwrap().elements, 1);
    let eight: Handles = [h; 8].into_iter().collect();
    assert_eq!(in_thread(|| raw::joined(&table, &eight, &[name; 8], &mut [0; 277])).unwrap_err().number, 15);
    assert_eq!(in_thread(|| raw::joined(&table, &one, &[name], &mut [0; 32])), Ok(32));
}

#[test]
fn products() {
    let long = long();
    let (f, last) = (&long.factor, long.last);
    let p = in_thread(|| Product::new([f, f])).unwrap();
    let both = in_thread(|| p.join(&[last, last])).unwrap();
    assert_eq!(in_thread(|| p.split(both)).unwrap(), [last, last]);
    let square = |e| p.join(&[long.times(e, e), long.times(e, e)]);
    assert_eq!(in_thread(|| p.compose(both, both)), square(last));
    let back = f.inverse(last).unwrap();
    let backs = p.join(&[back, back]).unwrap();
    assert_eq!(in_thread(|| p.inverse(both)), Ok(backs));
    // Its inverse's word is the longer one, so that its own is walked, from its first letter on.
    assert_eq!((f.word_length(back), f.word_length(last)), (Ok(4095), Ok(4096)));
    assert_eq!(in_thread(|| p.compose(backs, backs)), square(back));
    assert_eq!(in_thread(|| p.compose(both, backs)), Ok(Element(0)));
    assert_eq!(in_thread(|| p.conjugate(backs, backs)), Ok(backs));
    assert_eq!(in_thread(|| p.conjugate(both, both)), Ok(both));
    assert_eq!(in_thread(|| p.word_length(both)), Ok(8192));
    let turns = in_thread(|| p.word(both)).unwrap();
    assert_eq!(turns.len(), 8192);
    assert_eq!(in_thread(|| p.walk(Element(0), &turns)), Ok(both));
    assert_eq!(in_thread(|| p.project(1, both)), Ok(last));
    assert_eq!(in_thread(|| p.inject(0, last)), p.join(&[last, Element(0)]));
    assert_eq!(in_thread(|| p.powi(both, i32::MIN)), in_thread(|| p.powi(both, i32::MIN % 12_282)));
    assert_eq!(in_thread(|| p.powi(both, i32::MAX)), in_thread(|| p.powi(both, i32::MAX % 12_282)));
    let one = in_thread(|| Product::new([f])).unwrap();
    let turn = Element(long.numbers[&(1, false, 1)]);
    assert_eq!(in_thread(|| one.period(turn)), Ok(ORDER * 3));
    assert_eq!(in_thread(|| one.powi(last, i32::MIN)), in_thread(|| one.powi(last, i32::MIN % 12_282)));
    for g in p.generators() {
        assert_eq!(in_thread(|| p.generator(g)), in_thread(|| p.step(Element(0), g)));
    }
    assert_eq!(in_thread(|| one.flatten()).as_ref(), Ok(f));
}

/// The lists with the most places, in a factor and in a product of it, with the longest words at the last places.
#[test]
fn lists() {
    let long = long();
    let (f, last) = (&long.factor, long.last);
    let a: Vec<Element> = (0..4094).map(|i| Element(i * 6)).chain([last, f.inverse(last).unwrap()]).collect();
    let b: Vec<Element> = a.iter().rev().copied().collect();
    let exponents: Vec<i32> = (0..4096).map(|i| if i < 4090 { i % 7 - 3 } else { [i32::MIN, i32::MAX, -1][i as usize % 3] }).collect();
    let p = Product::new([f, f]).unwrap();
    // Both digits alike: what the factor answers is each digit of the product's.
    let twice = |list: &[Element]| list.iter().map(|&e| p.join(&[e, e]).unwrap()).collect::<Vec<_>>();
    let (aa, bb) = (twice(&a), twice(&b));
    let composed: Vec<Element> = a.iter().zip(&b).map(|(&a, &b)| long.times(a, b)).collect();
    assert_eq!(in_thread(|| f.compose_each(&a, &b)).unwrap(), composed);
    assert_eq!(in_thread(|| p.compose_each(&aa, &bb)).unwrap(), twice(&composed));
    let inverses = in_thread(|| f.inverse_each(&a)).unwrap();
    assert_eq!(in_thread(|| f.compose_each(&a, &inverses)).unwrap(), vec![Element(0); 4096]);
    assert_eq!(in_thread(|| p.inverse_each(&aa)).unwrap(), twice(&inverses));
    let powers = in_thread(|| f.powi_each(&a, &exponents)).unwrap();
    for i in [0, 1, 2, 5, 4089, 4090, 4091, 4092, 4095] {
        assert_eq!(in_thread(|| f.powi(a[i], exponents[i])), Ok(powers[i]));
    }
    assert_eq!(in_thread(|| p.powi_each(&aa, &exponents)).unwrap(), twice(&powers));
    let mut out = vec![Element(7); 4096];
    let no = in_thread(|| f.compose_each_into(&a, &[&b[..4095], &[Element(24_564)]].concat(), &mut out)).unwrap_err();
    assert_eq!((no.place, no.refusal.number, out), (Some(4095), 14, vec![Element(7); 4096]));
}

#[test]
fn names() {
    let longest = [b'n'; 32];
    let factor = in_thread(|| Factor::named(&longest).from_orders(1, &[], 2)).unwrap();
    let eight = in_thread(|| Product::new([&factor; 8])).unwrap();
    assert_eq!(in_thread(|| eight.name()).len(), 277);
    assert_eq!(in_thread(|| eight.write_name(&mut [0; 276])).unwrap_err().number, 18);
    let (mut table, mut work) = (vec![0; raw::table_need(1, 2)], vec![0; raw::work_need(1, 2)]);
    let (h, name) = in_thread(|| raw::composed_named(&mut table, 0, &mut work, &[1, 0], 1, 2, &longest)).unwrap();
    let all: Handles = [h; 8].into_iter().collect();
    assert_eq!(in_thread(|| raw::joined_part(&table, &all, &[name; 8])), eight.name());
}

#[test]
fn builds() {
    let long = long();
    let mut b = in_thread(|| Builder::new(3, 24_564)).unwrap();
    let built = in_thread(|| {
        for (at, &to) in long.rows.iter().enumerate() {
            let (e, g) = (Element((at / 3) as u32), Generator((at % 3) as u8));
            if to == b.element_count() {
                assert_eq!(b.add(e, g), Ok(Element(to)))
            } else {
                b.set(e, g, Element(to)).unwrap();
            }
        }
        b.build()
    });
    assert_eq!(built.as_ref(), Ok(&long.factor));
    let dihedral = in_thread(|| Factor::from_orders(2, &[4096], 8192)).unwrap();
    assert_eq!(in_thread(|| dihedral.compose(Element(8191), Element(8191))), Ok(Element(0)));
    assert_eq!(in_thread(|| dihedral.check(&[4096])), Ok(()));
    // The run of 000 follows the quick one where the enumeration is refused.
    assert_eq!(in_thread(|| Factor::from_orders(2, &[4097], 8194)).unwrap_err().number, 6);
    let image = in_thread(|| long.factor.to_image()).unwrap();
    assert_eq!(in_thread(|| Factor::from_image(&image)).as_ref(), Ok(&long.factor));
    let checked = in_thread(|| Image::check(&image)).unwrap();
    let mut work = vec![0; in_thread(|| raw::image_need(&image)).unwrap() as usize];
    assert_eq!(in_thread(|| raw::image_check(&image, &mut work)), 0);
    assert_eq!(in_thread(|| checked.walk(Element(0), &long.factor.word(long.last).unwrap())), Ok(long.last));
}

#[test]
fn subgroups() {
    let long = long();
    let (f, last) = (&long.factor, long.last);
    let over = in_thread(|| Product::new([f])).unwrap();
    // All of the group by three elements, of which the first has the longest word: each product is one along it.
    let all = in_thread(|| Subgroup::new(&over, &[last, Element(1), Element(2)])).unwrap();
    let back = f.inverse(last).unwrap();
    for made in [&all, &in_thread(|| Subgroup::new(&over, &[back, Element(1), Element(2)])).unwrap()] {
        assert_eq!(made.element_count(), 24_564);
    }
    assert_eq!(in_thread(|| all.generator(Generator(0))), Ok(last));
    let mine = in_thread(|| all.to_subgroup(last)).unwrap().unwrap();
    assert_eq!(in_thread(|| all.to_overgroup(mine)), Ok(last));
    let turns = in_thread(|| Subgroup::from_predicate_with_room(&over, |e| !long.members[e.0 as usize].1, 12_282)).unwrap();
    assert_eq!(turns.element_count(), 12_282);
    let two = Factor::from_orders(1, &[], 2).unwrap();
    let beside = Product::new([&two]).unwrap();
    assert_eq!(in_thread(|| all.multiplied_left(&beside)).unwrap().element_count(), 49_128);
    assert_eq!(in_thread(|| turns.multiplied_right(&beside)).unwrap().element_count(), 24_564);
}
