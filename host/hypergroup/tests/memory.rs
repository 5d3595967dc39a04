//! What the safe types keep, and what the check of an image asks for, in bytes that are allocated.
use hypergroup::{Checker, Element, Factor, Image, OwnedImage, Product, Subgroup, Unchecked};
use std::alloc::{GlobalAlloc, Layout, System};
use std::cell::Cell;

/// The system's allocator, with two counts for each thread, since the harness has threads of its own: the bytes that are allocated, and
/// the sum of all that were ever asked for.
struct Counted;

thread_local! {
    static HELD: Cell<usize> = const { Cell::new(0) };
    static ASKED: Cell<usize> = const { Cell::new(0) };
}

fn take(bytes: usize) {
    HELD.with(|held| held.set(held.get().wrapping_add(bytes)));
    ASKED.with(|asked| asked.set(asked.get() + bytes));
}

fn give_back(bytes: usize) {
    HELD.with(|held| held.set(held.get().wrapping_sub(bytes)));
}

// SAFETY: every call is handed on as it came.
unsafe impl GlobalAlloc for Counted {
    unsafe fn alloc(&self, layout: Layout) -> *mut u8 {
        take(layout.size());
        unsafe { System.alloc(layout) }
    }
    unsafe fn alloc_zeroed(&self, layout: Layout) -> *mut u8 {
        take(layout.size());
        unsafe { System.alloc_zeroed(layout) }
    }
    unsafe fn dealloc(&self, at: *mut u8, layout: Layout) {
        give_back(layout.size());
        unsafe { System.dealloc(at, layout) }
    }
}

#[global_allocator]
static COUNTED: Counted = Counted;

/// What a call makes, with the bytes that it keeps.
fn kept<T>(make: impl FnOnce() -> T) -> (T, usize) {
    let before = HELD.get();
    let made = make();
    (made, HELD.get().wrapping_sub(before))
}

/// What a call answers, and how many bytes it asked for.
fn asked<T>(call: impl FnOnce() -> T) -> (T, usize) {
    let before = ASKED.get();
    let answer = call();
    (answer, ASKED.get() - before)
}

#[test]
fn factors_are_cut_to_their_elements_and_shared() {
    // The table of S3 has 6 rows of 8 numbers, and two counts beside it.
    let rows = 6 * 8 * 4;
    let (s3, bytes) = kept(|| Factor::from_orders(2, &[3], 65_535).unwrap());
    assert!((rows..rows + 64).contains(&bytes), "{bytes}");
    let (clones, bytes) = kept(|| [(); 100].map(|()| s3.clone()));
    assert_eq!((bytes, clones[99].element_count()), (0, 6));
    drop(clones);

    // Eight times S3, twenty times: a product has its list of handles, and no table of its own.
    let (products, bytes) = kept(|| [(); 20].map(|()| Product::new([&s3; 8]).unwrap()));
    assert_eq!(products[19].element_count(), 1_679_616);
    assert!(bytes < 20 * 1000, "{bytes}");
    let (_all, bytes) = kept(|| products.clone());
    assert!(bytes < 20 * 1000, "{bytes}");

    // A name is by value: beside the table nothing is kept.
    let (named, bytes) = kept(|| Factor::named(&[b'n'; 32]).from_orders(2, &[3], 65_535).unwrap());
    assert!((rows..rows + 64).contains(&bytes), "{bytes}");
    let (caption, bytes) = kept(|| Product::new([&named, &s3, &named]).unwrap().name());
    assert_eq!((caption.len(), bytes), (70, 70));

    // Of other factors each is copied once, and what is made of the product again is not copied.
    let (dihedral, bytes) = kept(|| Factor::from_orders(2, &[4096], 65_535).unwrap());
    let table = 8192 * 8 * 4;
    assert!((table..table + 64).contains(&bytes), "{bytes}");
    let (mixed, bytes) = kept(|| Product::new([&dihedral, &s3, &dihedral]).unwrap());
    assert!((table + rows..table + rows + 1000).contains(&bytes), "{bytes}");
    let (_more, bytes) = kept(|| (mixed.clone(), Product::new(&mixed.factors().collect::<Vec<_>>()).unwrap()));
    assert!(bytes < 2000, "{bytes}");

    // A subgroup keeps a place for each element of the overgroup, its own rows and a place for each of its elements.
    let over = Product::from(&dihedral);
    let (sub, bytes) = kept(|| Subgroup::new(&over, &[Element(1)]).unwrap());
    assert_eq!(sub.element_count(), 2);
    assert!((8192 * 4..8192 * 4 + 2000).contains(&bytes), "{bytes}");
    let (_more, bytes) = kept(|| (sub.clone(), sub.multiplied_left(&over).unwrap()));
    assert!(bytes < 3000, "{bytes}");
}

#[test]
fn lists_are_lent_and_not_copied() {
    let s3 = Factor::from_orders(2, &[3], 6).unwrap();
    let pair = Product::new([&s3, &s3]).unwrap();
    let (list, exponents) = (vec![Element(3); 4096], vec![-7; 4096]);
    let mut out = vec![Element(0); 4096];
    let ((), bytes) = asked(|| {
        s3.compose_each_into(&list, &list, &mut out).unwrap();
        s3.inverse_each_into(&list, &mut out).unwrap();
        s3.powi_each_into(&list, &exponents, &mut out).unwrap();
        pair.compose_each_into(&list, &list, &mut out).unwrap();
        pair.inverse_each_into(&list, &mut out).unwrap();
        pair.powi_each_into(&list, &exponents, &mut out).unwrap();
        s3.inverse_each_into(&[Element(6)], &mut out[..1]).unwrap_err();
    });
    assert_eq!(bytes, 0);
    // A list of their own is as long as the lists and no longer; what is refused for its length gets none of that length.
    for places in [0, 1, 4096] {
        assert_eq!(asked(|| s3.compose_each(&list[..places], &list[..places]).unwrap()).1, 4 * places);
        assert_eq!(asked(|| pair.powi_each(&list[..places], &exponents[..places]).unwrap()).1, 4 * places);
    }
    let many = vec![Element(0); 1_000_000];
    let (answer, bytes) = asked(|| s3.inverse_each(&many));
    assert_eq!((answer.unwrap_err().refusal.number, bytes), (4, 4 * 4097));
}

#[test]
fn what_the_head_excludes_allocates_nothing() {
    // No generator and 65,535 elements; nine generators; a length that is wrong; no elements.
    let heads: [&[u8]; 5] = [
        &[0, 0, 0, 4, 1, 0, 255, 255],
        &[0, 0, 0, 22, 1, 9, 0, 1, 0, 0, 0, 0, 0, 0, 0, 0, 0, 0, 0, 0, 0, 0, 0, 0, 0, 0],
        &[0, 0, 0, 8, 1, 8, 255, 255, 0, 0, 0, 0],
        &[0, 0, 0, 4, 1, 8, 0, 0],
        &[],
    ];
    let mut checker = Checker::new(65_535);
    for (bytes, number) in heads.into_iter().zip([16, 1, 16, 16, 16]) {
        let (image, bytes_asked) = asked(|| Image::check(bytes));
        assert_eq!((image.unwrap_err().number, bytes_asked), (number, 0));
        let (owned, bytes_asked) = asked(|| OwnedImage::try_from(bytes));
        assert_eq!((owned.unwrap_err().number, bytes_asked), (number, 0));
        let (factor, bytes_asked) = asked(|| Factor::from_image(bytes));
        assert_eq!((factor.unwrap_err().number, bytes_asked), (number, 0));
        let (checked, bytes_asked) = asked(|| checker.check(bytes).map(drop));
        assert_eq!((checked.is_err(), bytes_asked), (true, 0));
    }

    // A refusal behind the head asks for the work once, and for no table beside it.
    let broken = [0, 0, 0, 8, 1, 1, 0, 2, 0, 1, 0, 1];
    let (image, bytes_asked) = asked(|| Image::check(&broken));
    assert_eq!((image.unwrap_err().number, bytes_asked), (8, 264));

    // A checker asks once for what it needs, and for nothing where the limit excludes the image.
    let z2 = [0, 0, 0, 8, 1, 1, 0, 2, 0, 1, 0, 0];
    let sums = [(); 3].map(|()| asked(|| checker.check(&z2).map(drop).unwrap()).1);
    assert_eq!(sums, [264, 0, 0]);
    let mut narrow = Checker::new(1);
    let (checked, bytes_asked) = asked(|| narrow.check(&z2).map(drop));
    assert!(matches!(checked, Err(Unchecked::TooLarge { elements: 2, most: 1 })));
    assert_eq!(bytes_asked, 0);
}
