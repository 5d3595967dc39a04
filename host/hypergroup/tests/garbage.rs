//! Every call of `raw` on random buffers, handles and arguments: it answers or refuses, and a refused question writes nothing.
use hypergroup::raw::{self, Answer, Handle, Handles, Name, Sides, SubgroupBuffers};
use hypergroup::{ListRefusal, Refusal};
use std::ops::Range;

struct Random(u64);

impl Random {
    fn below(&mut self, n: u64) -> u64 {
        self.0 = self.0.wrapping_mul(6364136223846793005).wrapping_add(1442695040888963407);
        (self.0 >> 33) % n
    }
    fn number(&mut self) -> u32 {
        match self.below(6) {
            0 => [0, 1, 2, 7, 255, 65_535, 65_536, 1 << 31, u32::MAX][self.below(9) as usize],
            1 => self.below(1 << 31) as u32,
            _ => self.below(8) as u32,
        }
    }
    fn byte(&mut self) -> u8 {
        self.number().min(255) as u8
    }
    fn list(&mut self, longest: u64) -> Vec<u32> {
        (0..self.below(longest)).map(|_| self.number()).collect()
    }
    /// Bytes, more than a name has now and then.
    fn bytes(&mut self) -> Vec<u8> {
        (0..self.below(40)).map(|_| self.byte()).collect()
    }
    /// A record that holds anything.
    fn name(&mut self) -> Name {
        Name { bytes: [(); 32].map(|()| self.byte()), length: [self.below(33) as u8, self.below(256) as u8][self.below(9) as usize / 8] }
    }
    fn handle(&mut self) -> Handle {
        let start = [self.below(20) as usize, usize::MAX, usize::MAX / 4][self.below(12).saturating_sub(9) as usize];
        Handle::new(start, self.number(), self.byte(), self.number())
    }
}

/// The table of S3, and its handle.
fn s3() -> (Vec<u32>, Handle) {
    let (mut table, mut work) = (vec![0; raw::table_need(2, 6)], vec![0; raw::work_need(2, 6)]);
    let handle = raw::composed(&mut table, 0, &mut work, &[1, 2, 0, 3, 4, 0, 5, 1, 2, 5, 3, 4], 2, 6).unwrap();
    (table, handle)
}

/// Whether a stretch is zero now, and all around it as it was.
fn cleared(before: &[u32], after: &[u32], stretch: Range<usize>) -> bool {
    around(before, after, stretch.clone()) && after[stretch].iter().all(|&x| x == 0)
}

/// Whether all around a stretch is as it was.
fn around(before: &[u32], after: &[u32], Range { start, end }: Range<usize>) -> bool {
    end <= after.len() && after[..start] == before[..start] && after[end..] == before[end..]
}

/// The stretch that a handle says; only of one that was not refused with 17.
fn stretch(h: Handle) -> Range<usize> {
    h.start..h.start + raw::table_need(h.generators, h.room)
}

/// One of the numbers that a question has.
fn asked<T>(answer: Answer<T>) {
    if let Err(Refusal { number, .. }) = answer {
        assert!([4, 14, 15, 17].contains(&number), "{number}");
    }
}

/// A question that writes into a list: refused, it writes nothing.
fn writes<T: Copy + PartialEq>(fill: T, size: usize, call: impl FnOnce(&mut [T]) -> Answer<u32>) {
    let mut out = vec![fill; size];
    let answer = call(&mut out);
    let len = answer.unwrap_or(0) as usize;
    assert!(out[len..].iter().all(|x| *x == fill));
    asked(answer);
}

#[test]
fn questions() {
    let mut r = Random(1);
    let s3 = s3();
    for _ in 0..20_000 {
        let (mut table, mut h) = (r.list(200), r.handle());
        // Of a table that is nearly a group's more is read.
        if r.below(2) == 0 {
            (table, h) = s3.clone();
            let at = r.below(48) as usize;
            table[at] = r.number();
        }
        let (a, b, g) = (r.number(), r.number(), r.byte());
        asked(raw::count(&table, h));
        asked(raw::step(&table, h, a, g));
        asked(raw::walk(&table, h, a, &[g, g, b as u8]));
        asked(raw::generator(&table, h, g));
        asked(raw::compose(&table, h, a, b));
        asked(raw::conjugate(&table, h, a, b));
        asked(raw::inverse(&table, h, a));
        let one: Handles = [h].into_iter().collect();
        assert_eq!(raw::powi(&table, h, a, b as i32), raw::product_powi(&table, &one, a, b as i32));
        assert_eq!(raw::period(&table, h, a), raw::product_period(&table, &one, a));
        asked(raw::length(&table, h, a));
        writes(165, r.below(9) as usize, |out| raw::word(&table, h, a, out));
        let mut out = [165; 4096];
        let len = raw::word(&table, h, a, &mut out).unwrap_or(0);
        assert_eq!(raw::part(&table, h, a), out[..len as usize]);
        writes(165, r.below(99) as usize, |out| raw::image_write(&table, h, out));
        let checked = raw::check(&table, h, &r.list(4)).err().map_or(0, |x| x.number);
        assert!([0, 2, 3, 13, 17].contains(&checked), "{checked}");
    }
}

/// A question over lists of these lengths, the output's last: what the single calls say place by place, and what is left in the output. Which number came.
fn listed(
    [first, second, long]: [usize; 3],
    single: impl Fn(usize) -> Answer<u32>,
    call: impl FnOnce(&mut [u32]) -> Result<(), ListRefusal>,
) -> usize {
    let mut out = vec![165; long];
    let answer = call(&mut out).map_err(|no| (no.place, no.refusal.number, no.refusal.places));
    if first != second || first != long {
        assert_eq!((answer, out), (Err((None, 4, [0; 3])), vec![165; long]));
        return 4;
    }
    let singly: Vec<Answer<u32>> = (0..first).map(single).collect();
    match singly.iter().zip(0..).find_map(|(one, place)| Some((place, one.err()?))) {
        None => assert_eq!((answer, out), (Ok(()), singly.into_iter().map(Result::unwrap).collect())),
        Some((place, no)) => assert_eq!((answer, out), (Err((Some(place), no.number, no.places)), vec![165; long])),
    }
    answer.err().map_or(0, |(_, number, _)| number as usize)
}

/// Forged handles and altered tables over lists: each place is what the single call says of the same table.
#[test]
fn questions_over_lists() {
    let mut r = Random(9);
    let s3 = s3();
    let mut met = [[0; 18]; 2];
    for _ in 0..20_000 {
        let (mut table, mut h) = (r.list(200), r.handle());
        if r.below(3) > 0 {
            (table, h) = s3.clone();
            let at = r.below(48) as usize;
            table[at] = [table[at], r.number()][r.below(2) as usize];
        }
        // One to three factors, or nine of the same.
        let mut p: Handles = [h].into_iter().chain((0..r.below(3)).map(|_| if r.below(4) > 0 { h } else { r.handle() })).collect();
        match r.below(9) {
            0 => p.count = r.byte(),
            1 => p = [h; 9].into_iter().collect(),
            _ => {}
        }
        // Mostly as many places: a few, about as many as a short list of results has, or so many that they are asked in two pieces.
        let k = [r.below(5), 60 + r.below(9), 30 + r.below(5), 250 + r.below(20)][(r.below(16) as usize).saturating_sub(12)] as usize;
        let mut lengths = [k; 3];
        if r.below(6) == 0 {
            lengths[r.below(3) as usize] = r.below(6) as usize;
        }
        // Mostly elements that are there, so that many places are reached.
        let limit = if r.below(2) == 0 { 6 } else { 7 };
        let mut element = || if r.below(30) == 0 { r.number() } else { r.below(limit) as u32 };
        let a: Vec<u32> = (0..lengths[0]).map(|_| element()).collect();
        let b: Vec<u32> = (0..lengths[1]).map(|_| element()).collect();
        let i: Vec<i32> = b.iter().map(|&b| [b as i32, -(b as i32 % 99), i32::MIN][b as usize % 3]).collect();
        let (t, one) = (&table, [lengths[0], lengths[0], lengths[2]]);
        met[0][listed(lengths, |k| raw::compose(t, h, a[k], b[k]), |out| raw::compose_each(t, h, &a, &b, out))] += 1;
        met[0][listed(one, |k| raw::inverse(t, h, a[k]), |out| raw::inverse_each(t, h, &a, out))] += 1;
        met[0][listed(lengths, |k| raw::powi(t, h, a[k], i[k]), |out| raw::powi_each(t, h, &a, &i, out))] += 1;
        met[1][listed(lengths, |k| raw::product_compose(t, &p, a[k], b[k]), |out| raw::product_compose_each(t, &p, &a, &b, out))] += 1;
        met[1][listed(one, |k| raw::product_inverse(t, &p, a[k]), |out| raw::product_inverse_each(t, &p, &a, out))] += 1;
        met[1][listed(lengths, |k| raw::product_powi(t, &p, a[k], i[k]), |out| raw::product_powi_each(t, &p, &a, &i, out))] += 1;
    }
    assert!(met.iter().all(|met| [0, 4, 14, 17].iter().all(|&k| met[k] > 500)) && met[1][15] > 20, "{met:?}");
}

/// The table of a group of pair orders, and its handle.
fn enumerated(n: u8, orders: &[u32], room: u32) -> (Vec<u32>, Handle) {
    let (mut table, mut work) = (vec![0; raw::table_need(n, room)], vec![0; raw::work_need(n, room)]);
    let handle = raw::enumerate(&mut table, 0, &mut work, orders, n, room).unwrap();
    (table, handle)
}

/// The table of the numbers below so many by adding these, and its handle. Its words are not as long as their inverses'.
fn added<const N: usize>(count: u32, by: [u32; N]) -> (Vec<u32>, Handle) {
    let (mut values, mut rows, n, mut e) = (vec![0], vec![], N as u8, 0);
    while e < values.len() {
        for x in by {
            let value = (values[e] + x) % count;
            let known = values.iter().position(|&v| v == value).unwrap_or(values.len());
            if known == values.len() {
                values.push(value);
            }
            rows.push(known as u32);
        }
        e += 1;
    }
    let (mut table, mut work) = (vec![0; raw::table_need(n, count)], vec![0; raw::work_need(n, count)]);
    let handle = raw::composed(&mut table, 0, &mut work, &rows, n, count).unwrap();
    (table, handle)
}

/// A number for a cell of a row: one that could stand there, or, where it is wrong, one out of range.
fn another(r: &mut Random, n: u64, count: u32, cell: u64, wrong: bool) -> u32 {
    let element = r.below(u64::from(count)) as u32;
    let letters = (0..5).fold(0, |all, _| all << 3 | r.below(n) as u32);
    let one = r.below(6) as usize;
    match cell.checked_sub(2 * n) {
        None if wrong => [0, count + 1, u32::MAX][one / 2],
        None => element + 1,
        Some(1) if wrong => [element << 15 | 0o70, count << 15 | letters, u32::MAX][one / 2],
        Some(1) => element << 15 | letters,
        Some(2) if wrong => [4097, u32::MAX][one / 3],
        Some(2) => [0, 1, 5, 6, 4095, 4096][one],
        _ if wrong => [count, u32::MAX][one / 3],
        _ => element,
    }
}

/// Above 2,048 elements four walks go side by side. In tables of which any numbers are altered, also in the identity's row, by which a walk goes on that has no
/// place left, each place is what the single call says.
#[test]
fn side_by_side() {
    let mut r = Random(13);
    let s3 = s3();
    let groups = [enumerated(2, &[1100], 2200), enumerated(4, &[5, 2, 3, 2, 2, 3], 14_400), added(2730, [1, 46, 500])];
    let mut met = [[0; 18]; 2];
    for turn in 0..600 {
        let (mut table, h) = groups[turn % 3].clone();
        let (n, count) = (u64::from(h.generators), h.elements);
        let (width, within) = (2 * n + 4, r.below(2) == 0);
        for _ in 0..[1, 3, 30, 300][r.below(4) as usize] {
            let (row, cell) = ([r.below(2), r.below(u64::from(count))][r.below(4).min(1) as usize], r.below(width));
            let wrong = !within && r.below(2) == 0;
            table[(row * width + cell) as usize] = another(&mut r, n, count, cell, wrong);
        }
        let pair: Handles = [h, s3.1.at(table.len())].into_iter().collect();
        table.extend(&s3.0);
        let (t, k) = (&table, 4 + [r.below(6), r.below(77)][r.below(2) as usize] as usize);
        for (which, elements) in [count, 6 * count].into_iter().enumerate() {
            // Mostly elements that are there; many of them with short words, so that walks end at different times.
            let mut element = || match r.below(300) {
                0 => elements,
                1..100 => r.below(9) as u32,
                _ => r.below(u64::from(elements)) as u32,
            };
            let a: Vec<u32> = (0..k).map(|_| element()).collect();
            let b: Vec<u32> = (0..k).map(|_| element()).collect();
            let i: Vec<i32> = b.iter().map(|&b| [b as i32, -(b as i32 % 99), i32::MIN][b as usize % 3]).collect();
            let p = &pair;
            let numbers = match which {
                0 => [
                    listed([k; 3], |k| raw::compose(t, h, a[k], b[k]), |out| raw::compose_each(t, h, &a, &b, out)),
                    listed([k; 3], |k| raw::inverse(t, h, a[k]), |out| raw::inverse_each(t, h, &a, out)),
                    listed([k; 3], |k| raw::powi(t, h, a[k], i[k]), |out| raw::powi_each(t, h, &a, &i, out)),
                ],
                _ => [
                    listed([k; 3], |k| raw::product_compose(t, p, a[k], b[k]), |out| raw::product_compose_each(t, p, &a, &b, out)),
                    listed([k; 3], |k| raw::product_inverse(t, p, a[k]), |out| raw::product_inverse_each(t, p, &a, out)),
                    listed([k; 3], |k| raw::product_powi(t, p, a[k], i[k]), |out| raw::product_powi_each(t, p, &a, &i, out)),
                ],
            };
            numbers.into_iter().for_each(|number| met[which][number] += 1);
        }
    }
    assert!(met.iter().all(|met| [0, 14, 17].iter().all(|&k| met[k] > 100)), "{met:?}");
}

/// Where the cell stands that has the last five letters of an element's word, and the element at which the word ends without them. The length is behind it.
fn letters_at(h: Handle, e: u32) -> usize {
    let n = usize::from(h.generators);
    e as usize * (2 * n + 4) + 2 * n + 1
}

/// What is answered when one number of the table is another: the word of e as it is written, by both calls, and asked of a product of this one factor, which must
/// all say the same; and a product and a conjugate. 17 writes nothing.
fn altered((table, h): &(Vec<u32>, Handle), at: usize, number: u32, e: u32, a: u32, b: u32) -> [Result<Vec<u8>, u32>; 3] {
    let mut table = table.clone();
    table[at] = number;
    let one: Handles = [*h].into_iter().collect();
    let written = |call: &dyn Fn(&mut [u8]) -> Answer<u32>| {
        let mut out = [165; 4096];
        let len = call(&mut out).map_err(|x| x.number);
        assert!(out[len.unwrap_or(0) as usize..].iter().all(|&x| x == 165));
        len.map(|k| out[..k as usize].to_vec())
    };
    let word = written(&|out| raw::word(&table, *h, e, out));
    assert_eq!(word, written(&|out| raw::product_word(&table, &one, e, out)));
    assert_eq!(raw::part(&table, *h, e), *word.as_deref().unwrap_or_default());
    let bytes = |answer: Answer<u32>| answer.map(|x| x.to_be_bytes().to_vec()).map_err(|x| x.number);
    let product = bytes(raw::compose(&table, *h, a, b));
    assert_eq!(product, bytes(raw::product_compose(&table, &one, a, b)));
    [word, product, bytes(raw::conjugate(&table, *h, a, b))]
}

/// A cell that is read is tested as a whole: each of its letters up to the last generator, the element above the letters up to the last one, and what is beyond is
/// 17: on every way that a product goes, and in the first and the second cell of a word.
#[test]
fn letters() {
    let h3 = enumerated(3, &[5, 2, 3], 120);
    let of_length = |len: u32| (0..120).find(|&e| raw::length(&h3.0, h3.1, e) == Ok(len)).unwrap();
    let (five, six) = (of_length(5), of_length(6));
    let back = raw::inverse(&h3.0, h3.1, six).unwrap();
    let second = h3.0[letters_at(h3.1, 119)] >> 15;
    assert_eq!(raw::length(&h3.0, h3.1, second), Ok(10));
    // The altered element, the one whose word is asked, and the product's two: along the second's own cell, back along its inverse's, along the first's.
    for (e, word, a, b) in
        [(five, five, 119, five), (back, back, 119, six), (six, six, six, 119), (119, 119, 119, 119), (second, 119, 119, 119)]
    {
        let at = letters_at(h3.1, e);
        let cell = h3.0[at];
        for k in 0..5 {
            for letter in 0..8 {
                let [word, product, conjugate] = altered(&h3, at, cell & !(7 << (3 * k)) | letter << (3 * k), word, a, b);
                match letter {
                    0..3 => assert!(word.is_ok() && product.is_ok() && conjugate.is_ok()),
                    _ => assert_eq!((word, product, conjugate), (Err(17), Err(17), Err(17))),
                }
            }
        }
        for element in [0, 119, 120, 121, 65_535, 131_071] {
            let [word, product, conjugate] = altered(&h3, at, cell & 32_767 | element << 15, word, a, b);
            // Where the word starts with these letters the element is not walked to, but it is in the cell that is read.
            match element < 120 {
                true => assert!(word.is_ok() && product.is_ok() && conjugate.is_ok()),
                false => assert_eq!((word, product, conjugate), (Err(17), Err(17), Err(17))),
            }
        }
    }
}

/// What stands in a cell above a word's own letters changes no answer as long as it could be letters and an element, nor does the step that such a letter would take;
/// else it is 17, as the whole cell is tested where it is read. The empty word reads none.
#[test]
fn above_a_short_word() {
    let h3 = enumerated(3, &[5, 2, 3], 120);
    for e in 0..120 {
        let own = raw::length(&h3.0, h3.1, e).unwrap();
        if own <= 5 {
            let at = letters_at(h3.1, e);
            let unaltered = altered(&h3, at, h3.0[at], e, 119, e);
            for above in [1, 2, 3, 7, 119, 120, 0o11111, 0o22222, 0o12121, 0o77777, u32::MAX] {
                let cell = h3.0[at] & !(u32::MAX << (3 * own)) | above << (3 * own);
                let within = (0..5).all(|k| cell >> (3 * k) & 7 < 3) && cell >> 15 < 120;
                let answers = altered(&h3, at, cell, e, 119, e);
                if own == 0 || within { assert_eq!(answers, unaltered) } else { assert_eq!(answers, [Err(17), Err(17), Err(17)]) }
            }
        }
    }
    // The empty word and those of one letter, 1 or 2, have no letter 0, by which no step is known then, or one beyond the elements.
    let step = h3.1.start + 119 * 10;
    for e in [0, 2, 3] {
        let product = raw::compose(&h3.0, h3.1, 119, e).unwrap();
        for number in [0, 121, u32::MAX] {
            assert_eq!(altered(&h3, step, number, e, 119, e)[1], Ok(product.to_be_bytes().to_vec()));
        }
    }
    assert_eq!(altered(&h3, step, 121, 1, 119, 1)[1], Err(17));
}

/// With eight generators every letter is one, and is written and walked; a word of 4,096 letters is written, and one more is 17.
#[test]
fn letters_of_eight() {
    let eight = enumerated(8, &[2; 28], 256);
    let at = letters_at(eight.1, 255);
    for letter in 0..8 {
        let [word, product, conjugate] = altered(&eight, at, eight.0[at] & !7 | letter, 255, 255, 255);
        assert_eq!(word.map(|w| (w.len(), w[7])), Ok((8, letter as u8)));
        assert!(product.is_ok() && conjugate.is_ok());
    }
    assert_eq!(altered(&eight, at + 1, 4096, 255, 1, 255)[0].as_ref().map(Vec::len), Ok(4096));
    assert_eq!(altered(&eight, at + 1, 4097, 255, 1, 255), [Err(17), Err(17), Err(17)]);
}

/// A step that is missing, or leads beyond the elements, is 17 for a walk that comes to it, and nothing to one that does not; a wrong letter is 14 before it.
#[test]
fn walks() {
    let (s3, z2) = (s3(), enumerated(1, &[], 2));
    let row = 2 * 2 + 4;
    for number in [0, 7, 8, 65_536, u32::MAX] {
        let mut table = s3.0.clone();
        table[s3.1.start + 3 * row] = number; // from 3 by turn 0
        table.extend(&z2.0);
        let second = z2.1.at(table.len() - z2.0.len());
        let pair: Handles = [s3.1, second].into_iter().collect();
        let refusal = |answer: Answer<u32>| answer.map_err(|x| (x.number, x.places));
        // 1 by turn 1 is 3; turn 2 is the second factor's.
        assert_eq!(refusal(raw::walk(&table, s3.1, 1, &[1, 0])), Err((17, [0; 3])));
        assert_eq!(refusal(raw::walk(&table, s3.1, 1, &[1, 1])), Ok(1));
        assert_eq!(refusal(raw::walk(&table, s3.1, 1, &[1, 0, 2])), Err((14, [3, 0, 0])));
        assert_eq!(refusal(raw::product_walk(&table, &pair, 1, &[2, 1, 2, 0])), Err((17, [0; 3])));
        assert_eq!(refusal(raw::product_walk(&table, &pair, 7, &[2, 1, 2, 1])), Ok(7));
        assert_eq!(refusal(raw::product_walk(&table, &pair, 1, &[1, 0, 3])), Err((14, [3, 0, 0])));
    }
    // Nine factors, of which eight are looked at: 14 for the start and for each letter comes before 15.
    let nine: Handles = [s3.1; 9].into_iter().collect();
    let refusal = |e, word: &[u8]| raw::product_walk(&s3.0, &nine, e, word).map_err(|x| (x.number, x.places));
    assert_eq!(refusal(1_679_615, &[15]), Err((15, [0; 3])));
    assert_eq!(refusal(1_679_615, &[15, 16]), Err((14, [2, 0, 0])));
    assert_eq!(refusal(1_679_616, &[]), Err((14, [0; 3])));
    // The last element is reached, and one more is not.
    let mut table = s3.0.clone();
    table[s3.1.start] = 6;
    assert_eq!(raw::walk(&table, s3.1, 0, &[0]), Ok(5));
}

/// A recorded length is tested wherever it is read: at 4,096 a product goes another way and is the same, at 4,097 and above it is 17, as the length itself is.
#[test]
fn lengths() {
    let h3 = enumerated(3, &[5, 2, 3], 120);
    let six = (0..120).find(|&e| raw::length(&h3.0, h3.1, e) == Ok(6) && raw::inverse(&h3.0, h3.1, e) != Ok(e)).unwrap();
    let back = raw::inverse(&h3.0, h3.1, six).unwrap();
    let product = raw::compose(&h3.0, h3.1, 119, six).unwrap();
    // The lengths of the first, of the second's inverse and of the second itself.
    for (e, in_range) in [(119, true), (back, true), (six, false)] {
        let at = letters_at(h3.1, e) + 1;
        for (number, fine) in [(4096, true), (4097, false), (4_000_000_000, false), (u32::MAX, false)] {
            let mut table = h3.0.clone();
            table[at] = number;
            assert_eq!(raw::length(&table, h3.1, e).map_err(|x| x.number), if fine { Ok(4096) } else { Err(17) });
            let [_, composed, _] = altered(&h3, at, number, e, 119, six);
            match fine {
                true if in_range => assert_eq!(composed, Ok(product.to_be_bytes().to_vec())),
                true => {}
                false => assert_eq!(composed, Err(17)),
            }
        }
    }
    // S3, whose words have at most three letters: a cell that no table can hold.
    let s3 = s3();
    assert_eq!(altered(&s3, letters_at(s3.1, 1), 4_294_967_288, 1, 3, 1), [Err(17), Err(17), Err(17)]);
    assert_eq!(altered(&s3, letters_at(s3.1, 1), 0, 1, 3, 1)[1], Ok(5u32.to_be_bytes().to_vec()));
}

#[test]
fn questions_of_products() {
    let mut r = Random(2);
    for _ in 0..20_000 {
        let (table, mut p) = (r.list(200), Handles::default());
        (0..r.below(10)).for_each(|_| p.push(r.handle()));
        if r.below(4) == 0 {
            p.count = r.byte();
            p.numbers.truncate(r.below(50) as usize);
        }
        let (a, b, g) = (r.number(), r.number(), r.byte());
        asked(raw::product(&table, &p, &p));
        asked(raw::product_count(&table, &p));
        asked(raw::product_generators(&table, &p));
        asked(raw::product_generator(&table, &p, g));
        asked(raw::product_step(&table, &p, a, g));
        asked(raw::product_walk(&table, &p, a, &[g, g, b as u8]));
        asked(raw::product_project(&table, &p, g, a));
        asked(raw::product_inject(&table, &p, g, a));
        asked(raw::product_compose(&table, &p, a, b));
        asked(raw::product_conjugate(&table, &p, a, b));
        asked(raw::product_inverse(&table, &p, a));
        asked(raw::product_powi(&table, &p, a, b as i32));
        asked(raw::product_period(&table, &p, a));
        asked(raw::product_length(&table, &p, a));
        asked(raw::product_join(&table, &p, &r.list(10)));
        writes(r.number() | 1 << 30, r.below(10) as usize, |out| raw::product_split(&table, &p, a, out));
        writes(165, r.below(9) as usize, |out| raw::product_word(&table, &p, a, out));
    }
}

/// The joined name of what is no product, with names that are none: 17, 15 or 18, and no byte; or the names' bytes, as many as their lengths say.
#[test]
fn joined_names() {
    let mut r = Random(8);
    let (table, handle) = s3();
    let mut met = [0; 19];
    for _ in 0..20_000 {
        let mut p: Handles = (0..r.below(10)).map(|_| if r.below(20) == 0 { r.handle() } else { handle }).collect();
        if r.below(8) == 0 {
            p.count = r.byte();
            p.numbers.truncate(r.below(50) as usize);
        }
        let names: Vec<Name> = (0..(u64::from(p.count) + 2).saturating_sub(r.below(4))).map(|_| r.name()).collect();
        let counted = &names[..names.len().min(p.count.min(8).into())];
        let whole = counted.iter().map(Name::as_bytes).collect::<Vec<_>>().join(&b" x "[..]);
        let mut out = vec![165; [r.below(300) as usize, whole.len(), whole.len().saturating_sub(1)][r.below(3) as usize]];
        let answer = raw::joined(&table, &p, &names, &mut out);
        let number = answer.err().map_or(0, |no| no.number);
        let product = raw::product_count(&table, &p).err().map_or(0, |no| no.number);
        let forged = counted.len() < p.count.min(8).into() || counted.iter().any(|name| name.length > 32);
        let due = if product == 17 || forged { 17 } else { product };
        assert_eq!(number, if due == 0 && out.len() < whole.len() { 18 } else { due });
        let len = answer.unwrap_or(0) as usize;
        assert!(out[len..].iter().all(|&x| x == 165));
        if number == 0 {
            assert_eq!(out[..len], whole);
        }
        assert_eq!(raw::joined_part(&table, &p, &names), if due == 0 { whole } else { vec![] });
        met[number as usize] += 1;
    }
    assert!([0, 15, 17, 18].iter().all(|&k| met[k] > 100), "{met:?}");
}

/// A build with a name, beside the same without: it makes the same of the same buffers, and its name is kept. A name that is too long is 18 where the build without
/// gets past 1 to 4, and touches nothing.
fn named_as<T: Copy + PartialEq + std::fmt::Debug>(
    plain: (Answer<T>, &[u32], &[u32]),
    before: (&[u32], &[u32]),
    name: &[u8],
    call: impl FnOnce(&mut [u32], &mut [u32]) -> Answer<(T, Name)>,
) {
    let (mut t, mut w) = (before.0.to_vec(), before.1.to_vec());
    let answer = call(&mut t, &mut w);
    if name.len() <= 32 {
        assert_eq!((answer.map(|(made, _)| made), &t[..], &w[..]), plain);
        if let Ok((_, kept)) = answer {
            assert!(kept.as_bytes() == name && kept.bytes[name.len()..].iter().all(|&x| x == 0));
        }
        return;
    }
    match plain.0 {
        Err(no @ Refusal { number: 1..=4, .. }) => assert_eq!(answer.unwrap_err(), no),
        _ => assert_eq!(answer.map(|_| ()).map_err(|no| (no.number, no.places)), Err((18, [0; 3]))),
    }
    assert!(t == before.0 && w == before.1);
}

/// Arguments that are refused touch no buffer; a refusal once a build has started leaves zeros, and the excess stays.
#[test]
fn builds() {
    let (mut r, mut names) = (Random(3), Random(10));
    let mut met = [[0; 18]; 4];
    for _ in 0..20_000 {
        let (n, room, start) = (r.below(4) as u8, r.below(6) as u32, r.below(30) as usize);
        let (table, work, rows) = (r.list(300), r.list(400), r.list(40));
        let (mut t, mut w) = (table.clone(), work.clone());
        let kind = r.below(4);
        let answer = match kind {
            0 => raw::composed(&mut t, start, &mut w, &rows, n, room),
            1 => raw::enumerate(&mut t, start, &mut w, &rows[..rows.len().min(3)], n, room),
            2 => raw::build(&mut t, Handle::new(start, room, n, r.below(6) as u32), &mut w),
            _ => {
                let mut p = Handles::default();
                (0..r.below(3)).for_each(|_| p.push(r.handle()));
                let generators = raw::product_generators(&table, &p).unwrap_or(0) as u8;
                if generators != n {
                    continue;
                }
                raw::product_flatten(&table, &p, n, &mut t, start, &mut w, room)
            }
        };
        let name = names.bytes();
        let (plain, before) = ((answer, &t[..], &w[..]), (&table[..], &work[..]));
        match kind {
            0 => named_as(plain, before, &name, |t, w| raw::composed_named(t, start, w, &rows, n, room, &name)),
            1 => named_as(plain, before, &name, |t, w| raw::enumerate_named(t, start, w, &rows[..rows.len().min(3)], n, room, &name)),
            _ => {}
        }
        let (end, need) = (start + raw::table_need(n, room), raw::work_need(n, room));
        let untouched = t == table && w == work;
        let zero = || cleared(&table, &t, start..end) && cleared(&work, &w, 0..need);
        match answer {
            Ok(h) => {
                let used = start + raw::table_need(n, h.elements);
                assert!(around(&table, &t, start..end) && cleared(&work, &w, 0..need));
                assert!(t[used..end].iter().all(|&x| x == 0));
            }
            Err(Refusal { number: 1..=4 | 14 | 15, .. }) => assert!(untouched),
            // Before a build starts these change nothing, and once it has started they leave zeros.
            Err(Refusal { number: 16 | 17, .. }) => assert!(untouched || zero()),
            Err(_) => assert!(zero()),
        }
        met[kind as usize][answer.err().map_or(0, |x| x.number as usize)] += 1;
    }
    // By rows, by orders, by a builder's steps and as a product: else the test would look at little.
    let due: [&[usize]; 4] = [&[0, 4, 5, 7, 9], &[0, 2, 3, 4, 5], &[0, 4, 7, 8, 9, 17], &[0, 4, 17]];
    assert!(due.iter().zip(&met).all(|(due, met)| due.iter().all(|&k| met[k] > 20)), "{met:?}");
}

/// Enumerations into garbage, and into what an earlier factor has left: the same table as from zeros, with as much room as there are elements, with more, and the
/// same refusal with less; zeros beyond the last element and in the work, and the excess as it was.
#[test]
fn enumerations_into_anything() {
    let mut r = Random(9);
    let groups: [(u8, &[u32], u32); 7] =
        [(0, &[], 1), (1, &[], 2), (2, &[3], 6), (2, &[31], 62), (3, &[5, 2, 3], 120), (4, &[9, 2, 2, 2, 2, 8], 288), (8, &[2; 28], 256)];
    let (mut table, mut work) = (Vec::new(), Vec::new());
    for _ in 0..3 {
        for (n, orders, count) in groups {
            for room in [count.saturating_sub(1).max(1), count, count + 1] {
                let (need, used) = (raw::table_need(n, room), raw::work_need(n, room));
                let (mut clean, mut spare) = (vec![0; need], vec![0; used]);
                let wanted = raw::enumerate(&mut clean, 0, &mut spare, orders, n, room);
                let end = wanted.as_ref().map_or(0, |h| raw::table_need(n, h.elements));
                assert_eq!(wanted.as_ref().map(|h| h.elements).map_err(|r| r.number), if room < count { Err(5) } else { Ok(count) });
                assert!(clean[end..].iter().all(|&x| x == 0));
                // What the last turn has left is there again, longer by garbage where this one needs more.
                let start = r.below(9) as usize;
                table.resize_with(table.len().max(start + need + 5), || r.number());
                work.resize_with(work.len().max(used + 5), || r.number());
                if r.below(2) == 0 {
                    table.iter_mut().chain(&mut work).for_each(|x| *x = r.number());
                }
                let (before, lent) = (table.clone(), work.clone());
                let answer = raw::enumerate(&mut table, start, &mut work, orders, n, room);
                assert_eq!(answer, wanted.map(|h| h.at(start)));
                assert!(around(&before, &table, start..start + need) && cleared(&lent, &work, 0..used));
                assert_eq!(table[start..start + need], clean);
                assert!(spare.iter().all(|&x| x == 0));
            }
        }
    }
}

/// Builds element by element, by the builder that is handed back or a forged one, in a table that is altered now and then.
#[test]
fn builders() {
    let (mut r, mut names) = (Random(7), Random(11));
    let mut met = [0; 18];
    for _ in 0..20_000 {
        let (n, room, start) = (r.below(11).saturating_sub(1) as u8, r.below(6) as u32, r.below(9) as usize);
        let before = r.list(150);
        let mut t = before.clone();
        let begun = raw::begin(&mut t, start, room, n);
        let name = names.bytes();
        named_as((begun, &t, &[]), (&before, &[]), &name, |t, _| raw::begin_named(t, start, room, n, &name));
        match begun {
            Ok(b) => assert!(b == Handle::new(start, room, n, 1) && cleared(&before, &t, stretch(b))),
            Err(x) => assert!([1, 4].contains(&x.number) && t == before, "{x:?}"),
        }
        let mut b = begun.unwrap_or_else(|_| r.handle());
        for _ in 0..r.below(9) {
            match r.below(20) {
                0 => b = r.handle(),
                1 | 2 if !t.is_empty() => {
                    let at = r.below(t.len() as u64) as usize;
                    t[at] = r.number();
                }
                _ => {}
            }
            let (before, e, g, x) = (t.clone(), r.below(4) as u32, r.below(3) as u8, r.number());
            let number = if r.below(2) == 0 {
                let grown = raw::add(&mut t, b, e, g);
                let over = grown.builder.elements == 0;
                match grown.answer {
                    Ok(new) => {
                        assert!(
                            new == b.elements
                                && grown.builder == Handle::new(b.start, b.room, b.generators, new + 1)
                                && around(&before, &t, stretch(b))
                        )
                    }
                    Err(Refusal { number: 5 | 6, .. }) => assert!(over && cleared(&before, &t, stretch(b))),
                    // 17 for the length that is read ends the build; in the handle, or 14, nothing changes.
                    Err(Refusal { number: 17, .. }) if over && b.elements > 0 => assert!(cleared(&before, &t, stretch(b))),
                    Err(Refusal { number: 14 | 17, .. }) => assert!(t == before && (over || grown.builder == b)),
                    Err(x) => panic!("{x:?}"),
                }
                b = grown.builder;
                grown.answer.err()
            } else {
                let stored = raw::set(&mut t, b, e, g, x);
                match stored {
                    Ok(_) => {
                        assert!(around(&before, &t, stretch(b)));
                        let now = t.clone();
                        assert!(raw::set(&mut t, b, e, g, x) == Ok(false) && t == now);
                    }
                    Err(x) => assert!([14, 17].contains(&x.number) && t == before, "{x:?}"),
                }
                stored.err()
            };
            met[number.map_or(0, |x| x.number as usize)] += 1;
        }
    }
    // All of this was met but 6, which needs a longer word; else the test would look at little.
    assert!([0, 5, 14, 17].iter().all(|&k| met[k] > 100), "{met:?}");
}

/// A step that is overwritten is read, to say whether the place was new: what is beyond the builder's elements is 17, in every cell of a successor, and nothing is
/// written then. A step is stored as its number + 1, so that the count itself is the last element's.
#[test]
fn steps_overwritten() {
    let mut t = vec![7; 5 + raw::table_need(2, 4) + 3];
    let mut b = raw::begin(&mut t, 5, 4, 2).unwrap();
    for g in 0..2 {
        b = raw::add(&mut t, b, 0, g).builder;
    }
    assert_eq!(b.elements, 3);
    for (e, g) in [(0, 0), (0, 1), (1, 0), (1, 1), (2, 0), (2, 1)] {
        let at = 5 + e as usize * 8 + usize::from(g);
        for number in [0, 1, 3, 4, 5, 65_536, 4_000_000_000, u32::MAX] {
            let mut t = t.clone();
            t[at] = number;
            let before = t.clone();
            let stored = raw::set(&mut t, b, e, g, 2).map_err(|x| (x.number, x.places[0]));
            if number <= 3 {
                assert_eq!(stored, Ok(number == 0), "{e} {g} {number}");
                assert!(t[at] == 3 && around(&before, &t, stretch(b)));
            } else {
                assert_eq!(stored, Err((17, 0)), "{e} {g} {number}");
                assert_eq!(t, before);
                // 14 comes first.
                assert_eq!(raw::set(&mut t, b, e, g, 3).map_err(|x| (x.number, x.places[0])), Err((14, 2)));
            }
        }
    }
}

#[test]
fn questions_of_subgroups() {
    let mut r = Random(5);
    for _ in 0..20_000 {
        let (from, table, map) = (r.list(200), r.list(200), r.list(40));
        let mut side = || (0..r.below(3)).map(|_| r.handle()).collect::<Handles>();
        let (below, over, above) = (side(), side(), side());
        let mut s = Sides::new(r.handle(), &below, &over, &above);
        if r.below(4) == 0 {
            let at = r.below(128) as usize;
            s.numbers[at] = r.number();
            s.numbers.truncate(r.below(300) as usize);
        }
        let (a, g) = (r.number(), r.byte());
        asked(raw::subgroup_over(&from, &table, &s, &map, a));
        asked(raw::subgroup_back(&from, &table, &s, &map, a));
        asked(raw::subgroup_generator(&from, &table, &s, &map, g));
        asked(raw::subgroup_generators(&from, &table, &s));
        asked(raw::subgroup_left(&from, &table, &below, &s));
        asked(raw::subgroup_right(&from, &table, &s, &above));
    }
}

/// As for other builds, and the maps with them: subgroups of S3 and of tables that are none, by generators and by a predicate.
#[test]
fn subgroups() {
    let mut r = Random(6);
    let (s3, handle) = s3();
    let mut met = [[0; 18]; 2];
    for _ in 0..20_000 {
        let over: Handles = match r.below(8) {
            0 => [Handle::new(handle.start, handle.room, handle.generators, r.below(7) as u32)].into_iter().collect(),
            1 => [handle, r.handle()].into_iter().collect(),
            // More than 65,535 elements, or more than 8 factors.
            2 => (0..7 + r.below(3)).map(|_| handle).collect(),
            _ => [handle].into_iter().collect(),
        };
        let mut from = s3.clone();
        if r.below(2) == 0 {
            let at = r.below(48) as usize;
            from[at] = r.number();
        }
        let (start, room) = (r.below(9) as usize, r.below(8) as u32);
        let generators: Vec<u32> = (0..r.below(4)).map(|_| r.below(7) as u32).collect();
        let members: Vec<u8> = (0..6 - r.below(8) / 7).map(|_| (r.below(3) / 2) as u8).collect();
        let told = r.below(2) == 0;
        let n = if told { 8 } else { generators.len() as u8 };
        let (end, need) = (start + raw::table_need(n, room), raw::work_need(n, room));
        // The overgroup's count, which a forged one may have too large for the map: 4 then.
        let mapped = raw::product_count(&from, &over).unwrap_or(6).min(6) as usize;
        let before =
            [end as u64 + r.below(9), need as u64 + r.below(9), 6 + r.below(3), room as u64 + r.below(3)].map(|len| vec![9; len as usize]);
        let [mut table, mut work, mut inward, mut outward] = before.clone();
        let lent = SubgroupBuffers { table: &mut table, work: &mut work, inward: &mut inward, outward: &mut outward };
        let answer = match told {
            true => raw::subgroup_predicate(&from, &over, &members, lent, start, room),
            false => raw::subgroup(&from, &over, &generators, lent, start, room),
        };
        let after = [table, work, inward, outward];
        let needed = [start..end, 0..need, 0..mapped, 0..room as usize];
        let each = |same: fn(&[u32], &[u32], Range<usize>) -> bool| (0..4).all(|k| same(&before[k], &after[k], needed[k].clone()));
        let (excess, zero) = (each(around), each(cleared));
        let due: &[u32] = if told { &[4, 5, 6, 8, 9, 10, 11, 12, 15, 17] } else { &[1, 4, 5, 6, 8, 9, 10, 11, 12, 14, 15, 17] };
        match answer {
            Ok(h) => assert!(excess && after[3][h.elements as usize..room as usize].iter().chain(&after[1][..need]).all(|&x| x == 0)),
            Err(Refusal { number, .. }) if !due.contains(&number) => panic!("{number}"),
            Err(Refusal { number: 1 | 4 | 14, .. }) => assert!(after == before),
            Err(Refusal { number: 15, .. }) if !told => assert!(after == before),
            // Before a build starts 15 and 17 change nothing, once it has started they leave zeros.
            Err(Refusal { number: 15 | 17, .. }) => assert!(after == before || zero),
            Err(_) => assert!(zero),
        }
        met[usize::from(told)][answer.err().map_or(0, |x| x.number as usize)] += 1;
    }
    assert!(met.iter().all(|met| [0, 4, 5, 15, 17].iter().all(|&k| met[k] > 20)), "{met:?}");
}

#[test]
fn images() {
    let mut r = Random(4);
    let mut met = [0; 18];
    for _ in 0..20_000 {
        let (n, count) = (r.below(3), r.below(5));
        let mut image = ((4 + 2 * n * count) as u32).to_be_bytes().to_vec();
        image.extend([1, n as u8, 0, count as u8]);
        image.extend((0..n * count).flat_map(|_| [0, r.below(count + 1) as u8]));
        if r.below(3) == 0 {
            let at = r.below(image.len() as u64) as usize;
            image[at] = r.byte();
        }
        let mut work = vec![0xa5; r.below(2000) as usize];
        let mut again = work.clone();
        let number = raw::image_check(&image, &mut work);
        // The verdict is the check's, with the same work left; and the need is what decides about 4, or has the refusal that comes of the head.
        assert_eq!(raw::image_verdict(&image, &mut again).err().map_or(0, |x| x.number), number);
        assert_eq!(again, work);
        match raw::image_need(&image) {
            Ok(need) => assert_eq!(number == 4, work.len() < need as usize),
            Err(x) => assert!([1, 16].contains(&x.number) && [x.number, 4].contains(&number), "{number} {x:?}"),
        }
        assert!([0, 1, 4, 5, 7, 8, 9, 10, 11, 12, 16].contains(&number), "{number}");
        let (n, count) = (image[5], u32::from(image[6]) * 256 + u32::from(image[7]));
        // Of a bad head no buffer's length is looked at.
        let right = n <= 8 && image.len() == 8 + 2 * usize::from(n) * count as usize;
        let (end, need) = if right { (raw::table_need(n, count), raw::work_need(n, count)) } else { (9, 9) };
        let start = r.below(9) as usize;
        let before = [start + end, need].map(|len| vec![9; (len + r.below(9) as usize).saturating_sub(1)]);
        let [mut t, mut w] = before.clone();
        let read = raw::image_read(&image, &mut t, start, &mut w);
        let untouched = [&t, &w] == [&before[0], &before[1]];
        let zero = || cleared(&before[0], &t, start..start + end) && cleared(&before[1], &w, 0..need);
        match read {
            Ok(h) => {
                assert!(h == Handle::new(start, count, n, count));
                assert!(around(&before[0], &t, stretch(h)) && cleared(&before[1], &w, 0..need));
            }
            Err(Refusal { number: 1 | 4, .. }) => assert!(untouched),
            Err(Refusal { number: 16, .. }) => assert!(untouched || zero()),
            Err(Refusal { number: 5 | 7..=12, .. }) => assert!(zero()),
            Err(x) => panic!("{x:?}"),
        }
        // Checking and reading refuse by the same number, unless the one or the other was lent too little.
        let other = read.err().map_or(0, |x| x.number);
        assert!(number == other || number == 4 || other == 4, "{number} {other}");
        met[other as usize] += 1;
        let word: Vec<u8> = (0..r.below(6)).map(|_| r.byte()).collect();
        let reached = raw::image_walk(&image, r.number(), &word);
        assert!(reached < 65_536 || [1, 14, 16, 17].contains(&(reached - 65_536)), "{reached}");
    }
    assert!([0, 1, 4, 5, 7, 8, 9, 16].iter().all(|&k| met[k] > 100), "{met:?}");
}

#[test]
fn empty_lists() {
    let h = Handle::new(0, 1, 0, 1);
    assert_eq!(raw::count(&[], h).unwrap_err().number, 17);
    assert_eq!(raw::product_count(&[], &Handles::default()), Ok(1));
    assert_eq!(raw::product_split(&[], &Handles::default(), 0, &mut []), Ok(0));
    assert_eq!(raw::image_check(&[], &mut []), 16);
    assert_eq!(raw::image_verdict(&[], &mut []).unwrap_err().number, 16);
    assert_eq!(raw::image_need(&[]).unwrap_err().number, 16);
    assert_eq!(raw::image_walk(&[], 0, &[]), 65_552);
    assert_eq!(raw::composed(&mut [], 0, &mut [], &[], 0, 1).unwrap_err().number, 4);
    assert_eq!(raw::composed_named(&mut [], 0, &mut [], &[], 0, 1, &[]).unwrap_err().number, 4);
    assert_eq!(raw::begin_named(&mut [], 0, 1, 0, &[0; 33]).unwrap_err().number, 4);
    assert_eq!(raw::joined(&[], &Handles::default(), &[], &mut []), Ok(0));
    // Lists with no place are fine whatever the handle.
    let bad: Handles = [h; 9].into_iter().collect();
    assert_eq!(raw::compose_each(&[], h, &[], &[], &mut []), Ok(()));
    assert_eq!(raw::inverse_each(&[], h, &[], &mut []), Ok(()));
    assert_eq!(raw::powi_each(&[], h, &[], &[], &mut []), Ok(()));
    assert_eq!(raw::product_compose_each(&[], &bad, &[], &[], &mut []), Ok(()));
    assert_eq!(raw::product_inverse_each(&[], &bad, &[], &mut []), Ok(()));
    assert_eq!(raw::product_powi_each(&[], &bad, &[], &[], &mut []), Ok(()));
}
