//! Questions over lists to the current product: by the call on a product, by the call on a factor where there is one alone, and by the safe types, into a
//! list that is lent and into one of their own. What a refused call leaves in its output, and any call behind it, must be as it was.
use super::*;
use hypergroup::ListRefusal;
use safe::{Element, both_safe, same};

/// `X,X,..`, or `-` for no place.
fn listed<T: std::str::FromStr>(w: &[&str], i: usize) -> Result<Vec<T>, No> {
    let bad = || No::Says(format!("bad argument {i}"));
    match *w.get(i).ok_or_else(bad)? {
        "-" => Ok(vec![]),
        list => list.split(',').map(|x| x.parse().map_err(|_| bad())).collect(),
    }
}

/// How many places the output has: as many as the first list, or with `+K` or `-K` so many more or less.
fn places(w: &[&str], i: usize, first: usize) -> Result<usize, No> {
    if i < w.len() { Ok(first.saturating_add_signed(number(w, i)?)) } else { Ok(first) }
}

/// What a call writes into an output of so many places, or its refusal.
fn written(places: usize, call: impl FnOnce(&mut [u32]) -> Result<(), ListRefusal>) -> Result<Vec<u32>, ListRefusal> {
    let mut out = vec![FILL; places + MARGIN];
    let answer = call(&mut out[..places]);
    let kept = if answer.is_ok() { places } else { 0 };
    assert!(out[kept..].iter().all(|&x| x == FILL), "a refused list was written to, or what is behind it");
    out.truncate(places);
    answer.map(|()| out)
}

/// The same by a safe type.
fn safely(places: usize, call: impl FnOnce(&mut [Element]) -> Result<(), ListRefusal>) -> Result<Vec<u32>, ListRefusal> {
    written(places, |out| {
        let mut elements = elements(out);
        let answer = call(&mut elements);
        out.iter_mut().zip(elements).for_each(|(x, e)| *x = e.0);
        answer
    })
}

fn elements(list: &[u32]) -> Vec<Element> {
    list.iter().copied().map(Element).collect()
}

fn told(list: Vec<Element>) -> Vec<u32> {
    list.iter().map(|e| e.0).collect()
}

/// A question over lists every way. `$own` is asked where the output is as long as the first list, which is what it has by itself.
macro_rules! every_way {
    ($p:expr, $places:expr, $own:expr, $product:ident, $factor:ident, ($($list:expr),*), $x:ident, $out:ident => $into:expr, $gathered:expr) => {{
        let (t, hs) = (&$p.table, &$p.handles);
        let whole = written($places, |out| raw::$product(t, hs $(, $list)*, out));
        let single = $p.single().map(|h| written($places, |out| raw::$factor(t, h $(, $list)*, out)));
        let answer = questions::both(whole, single);
        let answer = both_safe!($p, answer, $x => safely($places, |$out| $into));
        let own = $p.safe.as_ref().filter(|_| $own).map(|$x| $gathered.map(told));
        same(answer, own)
    }};
}

impl Product {
    /// `composes A,A,.. B,B,..`, `inverses A,A,..` and `powers A,A,.. I,I,..`, each with how much longer the output is, if it is.
    pub(crate) fn over_lists(&self, w: &[&str]) -> Result<Vec<u32>, No> {
        let a: Vec<u32> = listed(w, 1)?;
        let x = elements(&a);
        Ok(match w[0] {
            "composes" => {
                let (b, long): (Vec<u32>, _) = (listed(w, 2)?, places(w, 3, a.len())?);
                let y = elements(&b);
                every_way!(self, long, long == a.len(), product_compose_each, compose_each, (&a, &b),
                    p, out => p.compose_each_into(&x, &y, out), p.compose_each(&x, &y))
            }
            "inverses" => {
                let long = places(w, 2, a.len())?;
                every_way!(self, long, long == a.len(), product_inverse_each, inverse_each, (&a),
                    p, out => p.inverse_each_into(&x, out), p.inverse_each(&x))
            }
            _ => {
                let (i, long): (Vec<i32>, _) = (listed(w, 2)?, places(w, 3, a.len())?);
                every_way!(self, long, long == a.len(), product_powi_each, powi_each, (&a, &i),
                    p, out => p.powi_each_into(&x, &i, out), p.powi_each(&x, &i))
            }
        }?)
    }

    /// The arguments of `bench compose` and so on as a host has them before it asks over lists: elements, and of powers an exponent beside each.
    pub(crate) fn in_lists(&self, name: &str, asked: &[(u32, u32)]) -> Result<Lists, No> {
        let count = raw::product_count(&self.table, &self.handles)?;
        let (a, b): (Vec<u32>, Vec<u32>) = asked.iter().map(|&(a, b)| (a % count, if name == "powers" { b } else { b % count })).unzip();
        let exponents = b.iter().map(|&b| b as i32).collect();
        Ok(Lists { pairs: a.iter().copied().zip(b.iter().copied()).collect(), a, b, exponents })
    }

    /// `bench composes K TURNS` and so on: the sum of the answers, in lists of K places, or by single calls where K is 0.
    pub(crate) fn ask_lists(&self, name: &str, single: Option<Handle>, places: usize, asked: &Lists) -> Result<u32, No> {
        let (t, p, Lists { pairs, a, b, exponents }) = (&self.table, &self.handles, asked);
        if places == 0 {
            return match (name, single) {
                ("composes", Some(h)) => bench::summed(pairs, |a, b| raw::compose(t, h, a, b)),
                ("composes", None) => bench::summed(pairs, |a, b| raw::product_compose(t, p, a, b)),
                ("inverses", Some(h)) => bench::summed(pairs, |a, _| raw::inverse(t, h, a)),
                ("inverses", None) => bench::summed(pairs, |a, _| raw::product_inverse(t, p, a)),
                ("powers", _) => bench::summed(pairs, |a, i| raw::product_powi(t, p, a, i as i32)),
                _ => unsupported(),
            };
        }
        let mut out = vec![0; places.min(a.len())];
        let mut sum = 0u32;
        for ((a, b), i) in a.chunks(places).zip(b.chunks(places)).zip(exponents.chunks(places)) {
            let out = &mut out[..a.len()];
            match (name, single) {
                ("composes", Some(h)) => raw::compose_each(t, h, a, b, out),
                ("composes", None) => raw::product_compose_each(t, p, a, b, out),
                ("inverses", Some(h)) => raw::inverse_each(t, h, a, out),
                ("inverses", None) => raw::product_inverse_each(t, p, a, out),
                ("powers", Some(h)) => raw::powi_each(t, h, a, i, out),
                ("powers", None) => raw::product_powi_each(t, p, a, i, out),
                _ => return unsupported(),
            }?;
            sum = out.iter().fold(sum, |sum, &x| sum.wrapping_add(x));
        }
        Ok(sum)
    }
}

/// The arguments of a question over lists, in pairs for the single calls too.
pub(crate) struct Lists {
    pairs: Vec<(u32, u32)>,
    a: Vec<u32>,
    b: Vec<u32>,
    exponents: Vec<i32>,
}
