//! Checks on what the originals return, for the commands `check` and
//! `against`. None of this is from the originals.
use crate::*;

/// Successor rows of a factor.
pub(crate) fn rows(g: &AbstractGroupLut) -> (usize, usize, Vec<u32>) {
    let n = g.generators().len();
    let nn = g.element_count();
    let mut s = Vec::with_capacity(n * nn);
    for e in 0..nn as u32 {
        for k in 0..n as u8 {
            s.push(
                g.compose_elem_generator(GroupElementId(e), GeneratorId(k))
                    .0,
            );
        }
    }
    (n, nn, s)
}

/// True iff the rows are the right steps of a group with identity 0.
/// Needs every element reached from 0 (true of anything the builder numbers).
pub fn is_group(n: usize, nn: usize, s: &[u32]) -> bool {
    // columns are permutations
    for g in 0..n {
        let mut seen = vec![false; nn];
        for e in 0..nn {
            let x = s[e * n + g] as usize;
            if x >= nn || seen[x] {
                return false;
            }
            seen[x] = true;
        }
    }
    // breadth first order from 0
    let mut order = vec![0u32];
    let mut par = vec![(u32::MAX, 0usize); nn];
    let mut seen = vec![false; nn];
    seen[0] = true;
    let mut i = 0;
    while i < order.len() {
        let e = order[i];
        i += 1;
        for g in 0..n {
            let x = s[e as usize * n + g];
            if !seen[x as usize] {
                seen[x as usize] = true;
                par[x as usize] = (e, g);
                order.push(x);
            }
        }
    }
    if order.len() != nn {
        return false;
    }
    // left multiplication by each generator's element is an automorphism of
    // the labelled graph
    for g in 0..n {
        let mut phi = vec![0u32; nn];
        phi[0] = s[g];
        for &x in &order[1..] {
            let (p, h) = par[x as usize];
            phi[x as usize] = s[phi[p as usize] as usize * n + h];
        }
        for e in 0..nn {
            for h in 0..n {
                if phi[s[e * n + h] as usize] != s[phi[e] as usize * n + h] {
                    return false;
                }
            }
        }
    }
    true
}

/// First failing relation (element, g, h), in document 01's order for 13.
pub fn relation_failure(
    n: usize,
    nn: usize,
    s: &[u32],
    m: &[u16],
) -> Option<(usize, usize, usize)> {
    for e in 0..nn {
        for g in 0..n {
            if s[s[e * n + g] as usize * n + g] as usize != e {
                return Some((e, g, g));
            }
        }
        let mut k = 0;
        for j in 0..n {
            for i in 0..j {
                let mut x = e as u32;
                for _ in 0..m[k] {
                    x = s[x as usize * n + i];
                    x = s[x as usize * n + j];
                }
                if x as usize != e {
                    return Some((e, i, j));
                }
                k += 1;
            }
        }
    }
    None
}

/// Exact order of each pair product from the identity.
pub fn pair_orders(n: usize, s: &[u32]) -> Vec<u16> {
    let mut v = vec![];
    for j in 0..n {
        for i in 0..j {
            let mut x = 0u32;
            let mut c = 0u16;
            loop {
                x = s[x as usize * n + i];
                x = s[x as usize * n + j];
                c += 1;
                if x == 0 || c == u16::MAX {
                    break;
                }
            }
            v.push(c);
        }
    }
    v
}

/// True iff element numbers are in order of first appearance, scanning rows.
pub fn numbered_by_first_appearance(n: usize, nn: usize, s: &[u32]) -> bool {
    let mut count = 1;
    for e in 0..nn {
        if e >= count {
            return false;
        }
        for g in 0..n {
            let x = s[e * n + g] as usize;
            if x == count {
                count += 1;
            } else if x > count {
                return false;
            }
        }
    }
    count == nn
}

/// Order of the Coxeter group by the classification (None: infinite).
pub fn coxeter_order(n: usize, m: &[u16]) -> Option<u128> {
    let at = |i: usize, j: usize| -> u16 {
        let (i, j) = if i < j { (i, j) } else { (j, i) };
        m[j * (j - 1) / 2 + i]
    };
    let mut done = vec![false; n];
    let mut total: u128 = 1;
    for s in 0..n {
        if done[s] {
            continue;
        }
        let mut comp = vec![s];
        done[s] = true;
        let mut i = 0;
        while i < comp.len() {
            let a = comp[i];
            i += 1;
            for b in 0..n {
                if !done[b] && at(a, b) > 2 {
                    done[b] = true;
                    comp.push(b);
                }
            }
        }
        total *= component_order(&comp, &at)?;
    }
    Some(total)
}
fn fact(n: usize) -> u128 {
    (1..=n as u128).product()
}
fn component_order(c: &[usize], at: &dyn Fn(usize, usize) -> u16) -> Option<u128> {
    let r = c.len();
    if r == 1 {
        return Some(2);
    }
    if r == 2 {
        return Some(2 * at(c[0], c[1]) as u128);
    }
    let nb = |a: usize| -> Vec<usize> {
        c.iter()
            .copied()
            .filter(|&b| b != a && at(a, b) > 2)
            .collect()
    };
    let edges: usize = c.iter().map(|&a| nb(a).len()).sum::<usize>() / 2;
    if edges != r - 1 {
        return None; // a cycle
    }
    let branch: Vec<usize> = c.iter().copied().filter(|&a| nb(a).len() > 2).collect();
    if branch.len() > 1 {
        return None;
    }
    if branch.is_empty() {
        // a line: list labels along it
        let mut cur = *c.iter().find(|&&a| nb(a).len() == 1).unwrap();
        let mut prev = usize::MAX;
        let mut labels = vec![];
        loop {
            let nx = nb(cur).into_iter().find(|&b| b != prev);
            match nx {
                Some(b) => {
                    labels.push(at(cur, b));
                    prev = cur;
                    cur = b;
                }
                None => break,
            }
        }
        let not3: Vec<usize> = (0..labels.len()).filter(|&i| labels[i] != 3).collect();
        if not3.is_empty() {
            return Some(fact(r + 1));
        }
        if not3.len() > 1 {
            return None;
        }
        let p = not3[0];
        let end = p == 0 || p == labels.len() - 1;
        return match labels[p] {
            4 if end => Some((1u128 << r) * fact(r)),
            4 if r == 4 => Some(1152),
            5 if end && r == 3 => Some(120),
            5 if end && r == 4 => Some(14400),
            _ => None,
        };
    }
    // one branch
    let b = branch[0];
    let arms = nb(b);
    if arms.len() > 3 {
        return None;
    }
    for &x in c {
        for &y in c {
            if x != y && at(x, y) > 3 {
                return None;
            }
        }
    }
    let mut len: Vec<usize> = arms
        .iter()
        .map(|&a| {
            let mut l = 1;
            let (mut prev, mut cur) = (b, a);
            while let Some(x) = nb(cur).into_iter().find(|&x| x != prev) {
                prev = cur;
                cur = x;
                l += 1;
            }
            l
        })
        .collect();
    len.sort();
    match (len[0], len[1], len[2]) {
        (1, 1, _) => Some((1u128 << (r - 1)) * fact(r)),
        (1, 2, 2) => Some(51840),
        (1, 2, 3) => Some(2903040),
        (1, 2, 4) => Some(696729600),
        _ => None,
    }
}
