//! Every C function that writes its verdict into a list `out`, at both sides of the edge: a list that is just long enough gets the whole answer, one that is
//! longer keeps the rest, and a shorter one is refused with 4 before anything else, with every list as it was. What is expected is document 01's.
use hypergroup::raw::{self, Handle, Handles, Sides};

type In = *const u32;
type Out = *mut u32;

#[rustfmt::skip]
unsafe extern "C" {
    fn hg_begin(t: Out, tn: usize, start: usize, room: u32, n: u8, o: Out, on: usize) -> u32;
    fn hg_add(t: Out, tn: usize, start: usize, room: u32, n: u8, count: u32, e: u32, g: u8, o: Out, on: usize) -> u32;
    fn hg_build(t: Out, tn: usize, start: usize, room: u32, n: u8, count: u32, w: Out, wn: usize, o: Out, on: usize) -> u32;
    fn hg_check(t: In, tn: usize, start: usize, room: u32, n: u8, count: u32, m: In, mn: usize, o: Out, on: usize) -> u32;
    fn hg_composed(t: Out, tn: usize, start: usize, w: Out, wn: usize, r: In, rn: usize, n: u8, room: u32, o: Out, on: usize) -> u32;
    fn hg_enumerate(t: Out, tn: usize, start: usize, w: Out, wn: usize, m: In, mn: usize, n: u8, room: u32, o: Out, on: usize) -> u32;
    fn hg_composed_named(t: Out, tn: usize, start: usize, w: Out, wn: usize, r: In, rn: usize, n: u8, room: u32, m: *const u8, mn: usize, o: Out, on: usize, k: *mut u8, kn: usize) -> u32;
    fn hg_enumerate_named(t: Out, tn: usize, start: usize, w: Out, wn: usize, p: In, pn: usize, n: u8, room: u32, m: *const u8, mn: usize, o: Out, on: usize, k: *mut u8, kn: usize) -> u32;
    fn hg_begin_named(t: Out, tn: usize, start: usize, room: u32, n: u8, m: *const u8, mn: usize, o: Out, on: usize, k: *mut u8, kn: usize) -> u32;
    fn hg_joined(t: In, tn: usize, h: In, hn: usize, count: u8, m: *const u8, mn: usize, o: *mut u8, on: usize) -> u64;
    fn hg_joined_part(t: In, tn: usize, h: In, hn: usize, count: u8, m: *const u8, mn: usize, k: usize) -> u64;
    fn hg_product(t: In, tn: usize, a: In, an: usize, ac: u8, b: In, bn: usize, bc: u8, o: Out, on: usize) -> u32;
    fn hg_product_flatten(f: In, fl: usize, h: In, hn: usize, count: u8, t: Out, tn: usize, start: usize, w: Out, wn: usize, room: u32, o: Out, on: usize) -> u32;
    fn hg_image_read(i: *const u8, len: usize, t: Out, tn: usize, start: usize, w: Out, wn: usize, o: Out, on: usize) -> u32;
    fn hg_image_verdict(i: *const u8, len: usize, w: *mut u8, wn: usize, o: Out, on: usize) -> u32;
    fn hg_compose_each(t: In, tn: usize, start: usize, room: u32, n: u8, count: u32, a: In, an: usize, b: In, bn: usize, o: Out, on: usize, told: Out, len: usize) -> u32;
    fn hg_inverse_each(t: In, tn: usize, start: usize, room: u32, n: u8, count: u32, a: In, an: usize, o: Out, on: usize, told: Out, len: usize) -> u32;
    fn hg_powi_each(t: In, tn: usize, start: usize, room: u32, n: u8, count: u32, a: In, an: usize, i: *const i32, il: usize, o: Out, on: usize, told: Out, len: usize) -> u32;
    fn hg_product_compose_each(t: In, tn: usize, h: In, hn: usize, count: u8, a: In, an: usize, b: In, bn: usize, o: Out, on: usize, told: Out, len: usize) -> u32;
    fn hg_product_inverse_each(t: In, tn: usize, h: In, hn: usize, count: u8, a: In, an: usize, o: Out, on: usize, told: Out, len: usize) -> u32;
    fn hg_product_powi_each(t: In, tn: usize, h: In, hn: usize, count: u8, a: In, an: usize, i: *const i32, il: usize, o: Out, on: usize, told: Out, len: usize) -> u32;
    fn hg_subgroup(f: In, fl: usize, h: In, hn: usize, count: u8, g: In, gn: usize, t: Out, tn: usize, start: usize, w: Out, wn: usize, i: Out, il: usize, b: Out, bl: usize, room: u32, o: Out, on: usize) -> u32;
    fn hg_subgroup_predicate(f: In, fl: usize, h: In, hn: usize, count: u8, m: *const u8, mn: usize, t: Out, tn: usize, start: usize, w: Out, wn: usize, i: Out, il: usize, b: Out, bl: usize, room: u32, o: Out, on: usize) -> u32;
    fn hg_subgroup_left(f: In, fl: usize, t: In, tn: usize, h: In, hn: usize, count: u8, s: In, sn: usize, o: Out, on: usize) -> u32;
    fn hg_subgroup_right(f: In, fl: usize, t: In, tn: usize, s: In, sn: usize, h: In, hn: usize, count: u8, o: Out, on: usize) -> u32;
}

const S3: [u32; 12] = [1, 2, 0, 3, 4, 0, 5, 1, 2, 5, 3, 4];

/// What stands in every list before a call, so that a store shows.
const OLD: u32 = 0xA5A5_A5A5;

/// Lists that a call is lent to write: so many numbers each.
fn lent(sizes: &[usize]) -> Vec<Vec<u32>> {
    sizes.iter().map(|&size| vec![OLD; size]).collect()
}

/// A call with the lists in `lists` lent and `out` last. `whole` is what `out` must hold, its first number being the one that is returned.
fn edge(what: &str, lists: &[Vec<u32>], whole: &[u32], call: impl Fn(&mut [Vec<u32>], &mut [u32]) -> u32) {
    let run = |size: usize| {
        let (mut lists, mut out) = (lists.to_vec(), vec![OLD; size]);
        (call(&mut lists, &mut out), lists, out)
    };
    let (number, left, out) = run(whole.len());
    assert_eq!((number, &out[..]), (whole[0], whole), "{what}, as long as it has to be");
    let (again, beside, longer) = run(whole.len() + 3);
    assert_eq!((again, &longer[..whole.len()], &beside), (number, whole, &left), "{what}, longer");
    assert!(longer[whole.len()..].iter().all(|&x| x == OLD), "{what}: what is behind the answer");
    for size in 0..whole.len() {
        let (number, left, out) = run(size);
        assert_eq!(number, 4, "{what} with {size} numbers");
        assert!(left == lists && out.iter().all(|&x| x == OLD), "{what} with {size} numbers writes nothing");
    }
}

/// A call with a name, which has a record of 33 bytes beside `out`: the name as it is kept, where it is accepted, and what was there where it is refused. A record that
/// is longer keeps the rest, and a shorter one is refused as a short `out` is.
fn edge_named(what: &str, sizes: &[usize], whole: &[u32], name: &[u8], call: impl Fn(&mut [Vec<u32>], &mut [u32], &mut [u8]) -> u32) {
    let lists = lent(sizes);
    let run = |size: usize, bytes: usize| {
        let (mut lists, mut out, mut record) = (lists.clone(), vec![OLD; size], vec![OLD as u8; bytes]);
        (call(&mut lists, &mut out, &mut record), lists, out, record)
    };
    let mut kept = vec![OLD as u8; 40];
    if whole[0] == 0 {
        kept[..33].fill(0);
        kept[..name.len()].copy_from_slice(name);
        kept[32] = name.len() as u8;
    }
    let (number, left, out, record) = run(5, 33);
    assert_eq!((number, &out[..], &record[..]), (whole[0], whole, &kept[..33]), "{what}, as long as it has to be");
    let (number, beside, out, record) = run(8, 40);
    assert_eq!((number, &out[..], &record, beside), (whole[0], &[whole, &[OLD; 3]].concat()[..], &kept, left), "{what}, longer");
    for (size, bytes) in (0..5).map(|size| (size, 33)).chain((0..33).map(|bytes| (5, bytes))).chain([(4, 32), (0, 0), (4, 40), (8, 32)]) {
        let (number, left, out, record) = run(size, bytes);
        assert_eq!(number, 4, "{what} with {size} numbers and {bytes} bytes");
        let untouched = left == lists && out.iter().all(|&x| x == OLD) && record.iter().all(|&x| x == OLD as u8);
        assert!(untouched, "{what} with {size} numbers and {bytes} bytes writes nothing");
    }
}

/// A table in which S3 stands behind one number, and its handle.
fn s3() -> (Vec<u32>, Handle) {
    let (mut table, mut work) = (vec![OLD; 49], vec![OLD; 192]);
    let handle = raw::composed(&mut table, 1, &mut work, &S3, 2, 6).unwrap();
    (table, handle)
}

/// The factor's handle `count` times.
fn times(h: Handle, count: usize) -> Handles {
    std::iter::repeat_n(h, count).collect()
}

#[test]
fn a_factor_from_rows_and_from_orders() {
    let composed = |rows: Vec<u32>, n: u8, room: u32| {
        // SAFETY: here and below, pointers and lengths of slices, of which those that are written overlap no other.
        move |l: &mut [Vec<u32>], o: &mut [u32]| unsafe {
            let [t, w] = l else { unreachable!() };
            hg_composed(t.as_mut_ptr(), t.len(), 1, w.as_mut_ptr(), w.len(), rows.as_ptr(), rows.len(), n, room, o.as_mut_ptr(), o.len())
        }
    };
    let enumerated = |orders: Vec<u32>, n: u8, room: u32| {
        move |l: &mut [Vec<u32>], o: &mut [u32]| unsafe {
            let [t, w] = l else { unreachable!() };
            let (m, mn) = (orders.as_ptr(), orders.len());
            hg_enumerate(t.as_mut_ptr(), t.len(), 1, w.as_mut_ptr(), w.len(), m, mn, n, room, o.as_mut_ptr(), o.len())
        }
    };
    edge("composed", &lent(&[49, 192]), &[0, 0, 0, 0, 6], composed(S3.to_vec(), 2, 6));
    edge("composed, 10", &lent(&[33, 128]), &[10, 1, 2, 2, 0], composed(vec![1, 2, 3, 3, 0, 0, 2, 1], 2, 4));
    edge("composed, 1", &lent(&[0, 0]), &[1, 9, 0, 0, 0], composed(vec![], 9, 1));
    edge("enumerate", &lent(&[49, 192]), &[0, 0, 0, 0, 6], enumerated(vec![3], 2, 6));
    edge("enumerate, 3", &lent(&[49, 192]), &[3, 0, 0, 0, 0], enumerated(vec![1], 2, 6));
    edge("enumerate, 5", &lent(&[41, 160]), &[5, 3, 0, 0, 0], enumerated(vec![3], 2, 5));
}

#[test]
fn a_builder() {
    let begun = |n: u8| {
        move |l: &mut [Vec<u32>], o: &mut [u32]| unsafe { hg_begin(l[0].as_mut_ptr(), l[0].len(), 1, 2, n, o.as_mut_ptr(), o.len()) }
    };
    edge("begin", &lent(&[13]), &[0, 0, 0, 0, 1], begun(1));
    edge("begin, 1", &lent(&[13]), &[1, 9, 0, 0, 0], begun(9));
    edge("begin, 4", &lent(&[12]), &[4, 0, 0, 0, 0], begun(1));

    let mut table = vec![OLD; 13];
    let b = raw::begin(&mut table, 1, 2, 1).unwrap();
    let added = |b: Handle, e: u32| {
        move |l: &mut [Vec<u32>], o: &mut [u32]| unsafe {
            let t = &mut l[0];
            hg_add(t.as_mut_ptr(), t.len(), b.start, b.room, b.generators, b.elements, e, 0, o.as_mut_ptr(), o.len())
        }
    };
    edge("add", &[table.clone()], &[0, 1, 0, 0, 2], added(b, 0));
    edge("add, 14", &[table.clone()], &[14, 0, 0, 0, 1], added(b, 1));
    let b = raw::add(&mut table, b, 0, 0).builder;
    edge("add, 5", &[table.clone()], &[5, 1, 0, 0, 0], added(b, 1));

    let built = |l: &mut [Vec<u32>], o: &mut [u32]| unsafe {
        let [t, w] = l else { unreachable!() };
        hg_build(t.as_mut_ptr(), t.len(), b.start, b.room, b.generators, b.elements, w.as_mut_ptr(), w.len(), o.as_mut_ptr(), o.len())
    };
    edge("build, 8", &[table.clone(), vec![OLD; 20]], &[8, 1, 0, 0, 0], built);
    raw::set(&mut table, b, 1, 0, 0).unwrap();
    edge("build", &[table.clone(), vec![OLD; 20]], &[0, 0, 0, 0, 2], built);
    edge("build, 4", &[table.clone(), vec![OLD; 19]], &[4, 0, 0, 0, 0], built);
}

#[test]
fn a_name() {
    let long = [b'n'; 33];
    for name in [&b"S3"[..], b"", &long[..32], &long] {
        // For a name that is too long 18 stands where there would be anything behind 4.
        let due = |whole: [u32; 5]| if name.len() > 32 && !(1..=4).contains(&whole[0]) { [18, 0, 0, 0, 0] } else { whole };
        let (m, mn) = (name.as_ptr(), name.len());
        let composed = |sizes: &[usize], rows: &[u32], n: u8, room: u32, whole| {
            edge_named("composed", sizes, &due(whole), name, |l, o, k| unsafe {
                let [t, w] = l else { unreachable!() };
                let (t, tn, w, wn, r, rn) = (t.as_mut_ptr(), t.len(), w.as_mut_ptr(), w.len(), rows.as_ptr(), rows.len());
                hg_composed_named(t, tn, 1, w, wn, r, rn, n, room, m, mn, o.as_mut_ptr(), o.len(), k.as_mut_ptr(), k.len())
            });
        };
        composed(&[49, 192], &S3, 2, 6, [0, 0, 0, 0, 6]);
        composed(&[33, 128], &[1, 2, 3, 3, 0, 0, 2, 1], 2, 4, [10, 1, 2, 2, 0]);
        composed(&[0, 0], &[], 9, 1, [1, 9, 0, 0, 0]);
        composed(&[49, 192], &S3[..11], 2, 6, [4, 0, 0, 0, 0]);
        let enumerated = |sizes: &[usize], orders: &[u32], room: u32, whole| {
            edge_named("enumerate", sizes, &due(whole), name, |l, o, k| unsafe {
                let [t, w] = l else { unreachable!() };
                let (t, tn, w, wn, p, pn) = (t.as_mut_ptr(), t.len(), w.as_mut_ptr(), w.len(), orders.as_ptr(), orders.len());
                hg_enumerate_named(t, tn, 1, w, wn, p, pn, 2, room, m, mn, o.as_mut_ptr(), o.len(), k.as_mut_ptr(), k.len())
            });
        };
        enumerated(&[49, 192], &[3], 6, [0, 0, 0, 0, 6]);
        enumerated(&[49, 192], &[], 6, [2, 0, 0, 0, 0]);
        enumerated(&[49, 192], &[1], 6, [3, 0, 0, 0, 0]);
        enumerated(&[49, 191], &[3], 6, [4, 0, 0, 0, 0]);
        enumerated(&[41, 160], &[3], 5, [5, 3, 0, 0, 0]);
        let begun = |size: usize, n: u8, whole| {
            edge_named("begin", &[size], &due(whole), name, |l, o, k| unsafe {
                let (t, tn) = (l[0].as_mut_ptr(), l[0].len());
                hg_begin_named(t, tn, 1, 2, n, m, mn, o.as_mut_ptr(), o.len(), k.as_mut_ptr(), k.len())
            });
        };
        begun(13, 1, [0, 0, 0, 0, 1]);
        begun(13, 9, [1, 9, 0, 0, 0]);
        begun(12, 1, [4, 0, 0, 0, 0]);
    }
}

/// The list of names at both sides of each factor's 33 bytes: one that ends a byte before is 17, whatever stands in it, and what is behind the last is not looked at.
#[test]
fn a_list_of_names() {
    let (table, h) = s3();
    let listed: Vec<u8> = (0..9).flat_map(|k| [&[b'a' + k; 32][..], &[2]].concat()).collect();
    for count in 0..=9 {
        let handles = times(h, count.into());
        let (t, tn, list, len) = (table.as_ptr(), table.len(), handles.numbers.as_ptr(), handles.numbers.len());
        let counted = count.min(8);
        let whole = (0..counted).map(|k| [b'a' + k; 2]).collect::<Vec<_>>().join(&b" x "[..]);
        for bytes in 0..=listed.len() {
            let mut out = [OLD as u8; 64];
            let answer = unsafe { hg_joined(t, tn, list, len, count, listed.as_ptr(), bytes, out.as_mut_ptr(), whole.len()) };
            let part = |k| unsafe { hg_joined_part(t, tn, list, len, count, listed.as_ptr(), bytes, k) };
            let refused = if bytes < 33 * usize::from(counted) { 17 } else { u64::from(count > 8) * 15 };
            let told = if refused == 0 { whole.len() } else { 0 };
            assert_eq!(answer, if refused == 0 { told as u64 } else { refused << 32 }, "{count} factors, {bytes} bytes");
            assert!(out[..told] == whole[..told] && out[told..].iter().all(|&x| x == OLD as u8), "{count} factors, {bytes} bytes");
            for k in 0..told + 2 {
                assert_eq!(part(k), whole.get(k).filter(|_| k < told).map_or(256 + told as u64, |&x| x.into()));
            }
            assert_eq!(part(usize::MAX), 256 + told as u64);
        }
    }
}

#[test]
fn a_check_and_an_image() {
    let (table, h) = s3();
    let checked = |h: Handle, orders: Vec<u32>| {
        let table = table.clone();
        move |_: &mut [Vec<u32>], o: &mut [u32]| unsafe {
            let (t, tn) = (table.as_ptr(), table.len());
            hg_check(t, tn, h.start, h.room, h.generators, h.elements, orders.as_ptr(), orders.len(), o.as_mut_ptr(), o.len())
        }
    };
    edge("check", &[], &[0, 0, 0, 0], checked(h, vec![3]));
    edge("check, 2", &[], &[2, 0, 0, 0], checked(h, vec![]));
    edge("check, 13", &[], &[13, 0, 0, 1], checked(h, vec![2]));
    edge("check, 17", &[], &[17, 0, 0, 0], checked(h.at(2), vec![3]));

    let read = |image: Vec<u8>| {
        move |l: &mut [Vec<u32>], o: &mut [u32]| unsafe {
            let [t, w] = l else { unreachable!() };
            hg_image_read(image.as_ptr(), image.len(), t.as_mut_ptr(), t.len(), 1, w.as_mut_ptr(), w.len(), o.as_mut_ptr(), o.len())
        }
    };
    let z2 = vec![0, 0, 0, 8, 1, 1, 0, 2, 0, 1, 0, 0];
    edge("image", &lent(&[13, 20]), &[0, 0, 0, 0, 2], read(z2.clone()));
    edge("image, 4", &lent(&[12, 20]), &[4, 0, 0, 0, 0], read(z2.clone()));
    edge("image, 16", &lent(&[13, 20]), &[16, 0, 0, 0, 0], read(z2[1..].to_vec()));
    edge("image, 7", &lent(&[13, 20]), &[7, 0, 0, 2, 0], read(vec![0, 0, 0, 8, 1, 1, 0, 2, 0, 2, 0, 0]));

    // Its work is bytes: four in each number, and 264 for two elements and one generator.
    let judged = |image: Vec<u8>| {
        move |l: &mut [Vec<u32>], o: &mut [u32]| unsafe {
            let (w, wn) = (l[0].as_mut_ptr().cast(), 4 * l[0].len());
            hg_image_verdict(image.as_ptr(), image.len(), w, wn, o.as_mut_ptr(), o.len())
        }
    };
    edge("verdict", &lent(&[66]), &[0, 0, 0, 0], judged(z2.clone()));
    edge("verdict, 4", &lent(&[65]), &[4, 0, 0, 0], judged(z2.clone()));
    edge("verdict, 16", &lent(&[66]), &[16, 0, 0, 0], judged(z2[1..].to_vec()));
    edge("verdict, 5", &lent(&[66]), &[5, 1, 0, 0], judged(vec![0, 0, 0, 8, 1, 1, 0, 2, 0, 1, 0, 2]));
    edge("verdict, 7", &lent(&[66]), &[7, 0, 0, 2], judged(vec![0, 0, 0, 8, 1, 1, 0, 2, 0, 2, 0, 0]));
}

#[test]
fn a_product() {
    let (table, h) = s3();
    let multiplied = |a: Handles, b: Handles| {
        let table = table.clone();
        move |_: &mut [Vec<u32>], o: &mut [u32]| unsafe {
            let (t, tn, first, second) = (table.as_ptr(), table.len(), &a.numbers, &b.numbers);
            hg_product(t, tn, first.as_ptr(), first.len(), a.count, second.as_ptr(), second.len(), b.count, o.as_mut_ptr(), o.len())
        }
    };
    edge("product", &[], &[0, 0, 0, 0, 3], multiplied(times(h, 2), times(h, 1)));
    edge("product, 15", &[], &[15, 0, 0, 0, 1], multiplied(times(h, 8), times(h, 1)));
    edge("product, 17", &[], &[17, 0, 0, 0, 1], multiplied(times(h.at(2), 1), times(h, 1)));

    let flattened = |p: Handles, room: u32| {
        let table = table.clone();
        move |l: &mut [Vec<u32>], o: &mut [u32]| unsafe {
            let [t, w] = l else { unreachable!() };
            let (f, fl, list) = (table.as_ptr(), table.len(), &p.numbers);
            let (t, tn, w, wn) = (t.as_mut_ptr(), t.len(), w.as_mut_ptr(), w.len());
            hg_product_flatten(f, fl, list.as_ptr(), list.len(), p.count, t, tn, 1, w, wn, room, o.as_mut_ptr(), o.len())
        }
    };
    edge("flatten", &lent(&[49, 192]), &[0, 0, 0, 0, 6], flattened(times(h, 1), 6));
    edge("flatten, 7", &lent(&[433, 4032]), &[7, 0, 2, 6, 0], flattened(times(h, 2), 36));
    edge("flatten, 4", &lent(&[49, 191]), &[4, 0, 0, 0, 0], flattened(times(h, 1), 6));
}

/// The questions over lists, whose verdict is in a list of five numbers of its own, beside the output.
#[test]
fn lists() {
    let (table, h) = s3();
    // By their number: compose, inverse and powi of the factor, and of the product of two of it.
    let each = |which: usize, a: Vec<u32>, b: Vec<u32>| {
        let (table, p) = (table.clone(), times(h, 2));
        let i: Vec<i32> = b.iter().map(|&b| -(b as i32)).collect();
        move |l: &mut [Vec<u32>], told: &mut [u32]| unsafe {
            let [o] = l else { unreachable!() };
            let (t, tn, list, len, count) = (table.as_ptr(), table.len(), p.numbers.as_ptr(), p.numbers.len(), p.count);
            let (start, room, n, elements) = (h.start, h.room, h.generators, h.elements);
            let (a, an, b, bn, i, il) = (a.as_ptr(), a.len(), b.as_ptr(), b.len(), i.as_ptr(), i.len());
            let (o, on, told, five) = (o.as_mut_ptr(), o.len(), told.as_mut_ptr(), told.len());
            match which {
                0 => hg_compose_each(t, tn, start, room, n, elements, a, an, b, bn, o, on, told, five),
                1 => hg_inverse_each(t, tn, start, room, n, elements, a, an, o, on, told, five),
                2 => hg_powi_each(t, tn, start, room, n, elements, a, an, i, il, o, on, told, five),
                3 => hg_product_compose_each(t, tn, list, len, count, a, an, b, bn, o, on, told, five),
                4 => hg_product_inverse_each(t, tn, list, len, count, a, an, o, on, told, five),
                _ => hg_product_powi_each(t, tn, list, len, count, a, an, i, il, o, on, told, five),
            }
        }
    };
    for which in 0..6 {
        edge("lists", &lent(&[3]), &[0, 0, 0, 0, 0], each(which, vec![3, 1, 5], vec![1, 2, 3]));
        edge("no lists", &lent(&[0]), &[0, 0, 0, 0, 0], each(which, vec![], vec![]));
        edge("lists, 14", &lent(&[3]), &[14, 0, 0, 0, 2], each(which, vec![3, 1, 36], vec![1, 2, 3]));
        edge("lists, 4", &lent(&[4]), &[4, 0, 0, 0, 0], each(which, vec![3, 1, 36], vec![1, 2, 3]));
        let mut lists = lent(&[3]);
        let (a, b): (Vec<u32>, Vec<u32>) = (vec![3, 1, 5], vec![1, 2, 3]);
        assert_eq!(each(which, a.clone(), b.clone())(&mut lists, &mut [OLD; 5]), 0);
        let due = (0..3).map(|k| match which % 3 {
            0 => raw::compose(&table, h, a[k], b[k]),
            1 => raw::inverse(&table, h, a[k]),
            _ => raw::powi(&table, h, a[k], -(b[k] as i32)),
        });
        // The product's elements below 6 are the first factor's.
        assert_eq!(lists[0], due.map(Result::unwrap).collect::<Vec<_>>());
    }
    edge("lists, 14 of the second", &lent(&[2]), &[14, 1, 0, 0, 1], each(0, vec![1, 1], vec![1, 6]));
    edge("lists, 4", &lent(&[2]), &[4, 0, 0, 0, 0], each(3, vec![1, 1], vec![1]));
}

#[test]
fn a_subgroup() {
    let (table, h) = s3();
    let over = times(h, 1);
    let generated = |generators: Vec<u32>| {
        let (table, over) = (table.clone(), over.clone());
        move |l: &mut [Vec<u32>], o: &mut [u32]| unsafe {
            let [t, w, i, b] = l else { unreachable!() };
            let (f, fl, g, gn) = (table.as_ptr(), table.len(), generators.as_ptr(), generators.len());
            let (h, hn, count) = (over.numbers.as_ptr(), over.numbers.len(), over.count);
            let (t, tn, w, wn) = (t.as_mut_ptr(), t.len(), w.as_mut_ptr(), w.len());
            let (i, il, b, bl) = (i.as_mut_ptr(), i.len(), b.as_mut_ptr(), b.len());
            hg_subgroup(f, fl, h, hn, count, g, gn, t, tn, 1, w, wn, i, il, b, bl, 3, o.as_mut_ptr(), o.len())
        }
    };
    edge("subgroup", &lent(&[19, 30, 6, 3]), &[0, 0, 0, 0, 3, 1], generated(vec![3]));
    edge("subgroup, 14", &lent(&[19, 30, 6, 3]), &[14, 1, 0, 0, 0, 0], generated(vec![3, 6]));
    edge("subgroup, 9", &lent(&[19, 30, 6, 3]), &[9, 0, 0, 0, 0, 0], generated(vec![0]));

    let of = |members: Vec<u8>| {
        let (table, over) = (table.clone(), over.clone());
        move |l: &mut [Vec<u32>], o: &mut [u32]| unsafe {
            let [t, w, i, b] = l else { unreachable!() };
            let (f, fl, m, mn) = (table.as_ptr(), table.len(), members.as_ptr(), members.len());
            let (h, hn, count) = (over.numbers.as_ptr(), over.numbers.len(), over.count);
            let (t, tn, w, wn) = (t.as_mut_ptr(), t.len(), w.as_mut_ptr(), w.len());
            let (i, il, b, bl) = (i.as_mut_ptr(), i.len(), b.as_mut_ptr(), b.len());
            hg_subgroup_predicate(f, fl, h, hn, count, m, mn, t, tn, 1, w, wn, i, il, b, bl, 3, o.as_mut_ptr(), o.len())
        }
    };
    edge("predicate", &lent(&[61, 1248, 6, 3]), &[0, 0, 0, 0, 3, 1], of(vec![1, 0, 0, 1, 1, 0]));
    edge("predicate, 4", &lent(&[61, 1248, 6, 3]), &[4, 0, 0, 0, 0, 0], of(vec![1, 0, 0, 1, 1]));

    let (mut own, mut work, mut inward, mut outward) = (vec![OLD; 18], vec![OLD; 30], vec![OLD; 6], vec![OLD; 3]);
    let buffers = raw::SubgroupBuffers { table: &mut own, work: &mut work, inward: &mut inward, outward: &mut outward };
    let sub = raw::subgroup(&table, &over, &[3], buffers, 0, 3).unwrap();
    let sides = Sides::new(sub, &times(h, 0), &over, &times(h, 0)).numbers;
    let beside = |left: bool, g: Handles| {
        let (table, own, sides) = (table.clone(), own.clone(), sides.clone());
        move |_: &mut [Vec<u32>], o: &mut [u32]| unsafe {
            let (f, fl, t, tn, s, sn) = (table.as_ptr(), table.len(), own.as_ptr(), own.len(), sides.as_ptr(), sides.len());
            let (list, len) = (g.numbers.as_ptr(), g.numbers.len());
            match left {
                true => hg_subgroup_left(f, fl, t, tn, list, len, g.count, s, sn, o.as_mut_ptr(), o.len()),
                false => hg_subgroup_right(f, fl, t, tn, s, sn, list, len, g.count, o.as_mut_ptr(), o.len()),
            }
        }
    };
    for left in [true, false] {
        edge("a factor beside it", &[], &[0, 0, 0, 0], beside(left, times(h, 1)));
        edge("beside it, 15", &[], &[15, 0, 0, 0], beside(left, times(h, 8)));
        edge("beside it, 17", &[], &[17, 0, 0, 0], beside(left, times(h.at(2), 1)));
    }
}
