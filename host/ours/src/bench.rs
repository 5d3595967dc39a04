//! `bench ..`: the least seconds of three, and a number that the same work gives again, as the oracle's `bench` does.
use super::*;
use hypergroup::raw::SubgroupBuffers;
use std::cell::Cell;

/// Arguments for questions, the same each time and the same as the oracle's.
fn pairs(count: usize) -> Vec<(u32, u32)> {
    let mut x = 1u64;
    let mut next = || {
        x = x.wrapping_mul(6364136223846793005).wrapping_add(1442695040888963407);
        (x >> 32) as u32
    };
    (0..count).map(|_| (next(), next())).collect()
}

/// Buffers for a build with so many generators and so much room, lent again and again as they were left.
struct Room {
    table: Vec<u32>,
    work: Vec<u32>,
}

impl Room {
    fn new(n: u8, room: u32) -> Self {
        Room { table: vec![0; raw::table_need(n, room)], work: vec![0; raw::work_need(n, room)] }
    }
}

/// One number for each question, as the oracle's loop has it; a refusal is looked for at each answer, and the first is kept aside.
fn plain<'a, A: 'a>(refused: &'a Cell<Option<Refusal>>, mut ask: impl FnMut(A) -> Answer<u32> + 'a) -> impl FnMut(A) -> u32 + 'a {
    move |x| {
        ask(x).unwrap_or_else(|no| {
            refused.set(refused.get().or(Some(no)));
            0
        })
    }
}

/// The sum of the answers to one question, over many arguments. The call is chosen before, as in the oracle.
pub(crate) fn summed(asked: &[(u32, u32)], mut ask: impl FnMut(u32, u32) -> Answer<u32>) -> Result<u32, No> {
    let refused = Cell::new(None);
    let chosen: &mut dyn FnMut((u32, u32)) -> u32 = &mut plain(&refused, |(a, b)| ask(a, b));
    let sum = asked.iter().fold(0u32, |sum, &pair| sum.wrapping_add(chosen(pair)));
    refused.get().map_or(Ok(sum), |no| Err(no.into()))
}

/// One question to one factor; what its answer is times in the product's, and what is added.
struct Part {
    factor: usize,
    a: u32,
    b: u32,
    stride: u32,
    rest: u32,
}

impl Product {
    /// A question to the product as questions to its factors: a step is one factor's, the others are every factor's.
    fn parts(&self, name: &str, asked: &[(u32, u32)]) -> Result<Vec<Part>, No> {
        let (t, p) = (&self.table, &self.handles);
        let (n, count) = (raw::product_generators(t, p)?, raw::product_count(t, p)?);
        let mut parts = Vec::new();
        for &(a, b) in asked {
            let (mut stride, mut before, x) = (1, 0, a % count);
            for (factor, h) in self.factors.iter().enumerate() {
                let digit = |x: u32| x / stride % h.elements;
                let (a, generators) = (digit(x), u32::from(h.generators));
                match name {
                    "step" if before <= b % n && b % n < before + generators => {
                        parts.push(Part { factor, a, b: b % n - before, stride, rest: x - stride * a })
                    }
                    "step" => {}
                    "powi" => parts.push(Part { factor, a, b, stride, rest: 0 }),
                    "word" => parts.push(Part { factor, a, b: before, stride: 1, rest: 0 }),
                    _ => parts.push(Part { factor, a, b: digit(b % count), stride, rest: 0 }),
                }
                stride = stride.wrapping_mul(h.elements);
                before += generators;
            }
        }
        Ok(parts)
    }

    /// The factors one after another, each by its own calls: what the same answers cost with no product.
    fn ask_alone<'p>(&self, name: &str, parts: &'p [Part]) -> Result<u32, No> {
        let (t, hs) = (&self.table, &self.factors);
        let ones: Vec<Handles> = hs.iter().map(|&h| [h].into_iter().collect()).collect();
        let mut word = vec![0; if name == "word" { 4096 } else { 0 }];
        let mut spelled = |h: Handle, e: u32, before: u32| {
            raw::word(t, h, e, &mut word).map(|k| word[..k as usize].iter().map(|&g| u32::from(g) + before + 1).sum())
        };
        let refused = Cell::new(None);
        let mut ask: Box<dyn FnMut(&'p Part) -> u32 + '_> = match name {
            "step" => Box::new(plain(&refused, |p: &Part| raw::step(t, hs[p.factor], p.a, p.b as u8))),
            "compose" => Box::new(plain(&refused, |p: &Part| raw::compose(t, hs[p.factor], p.a, p.b))),
            "conjugate" => Box::new(plain(&refused, |p: &Part| raw::conjugate(t, hs[p.factor], p.a, p.b))),
            "inverse" => Box::new(plain(&refused, |p: &Part| raw::inverse(t, hs[p.factor], p.a))),
            "word" => Box::new(plain(&refused, |p: &Part| spelled(hs[p.factor], p.a, p.b))),
            "powi" => Box::new(plain(&refused, |p: &Part| raw::product_powi(t, &ones[p.factor], p.a, p.b as i32))),
            _ => return unsupported(),
        };
        let sum = parts.iter().fold(0u32, |sum, p| sum.wrapping_add(p.rest.wrapping_add(p.stride.wrapping_mul(ask(p)))));
        drop(ask);
        refused.get().map_or(Ok(sum), |no| Err(no.into()))
    }

    /// By the calls on one factor if it is given, else by those on products.
    fn ask_often(&self, name: &str, single: Option<Handle>, asked: &[(u32, u32)]) -> Result<u32, No> {
        let (t, p) = (&self.table, &self.handles);
        let (n, count) = (raw::product_generators(t, p)?, raw::product_count(t, p)?);
        let factors = u32::from(p.count.max(1));
        let e = |x: u32| x % count;
        let g = |x: u32| (x % n) as u8;
        let f = |x: u32| (x % factors) as u8;
        let mut word = vec![0; if name == "word" { 8 * 4096 } else { 0 }];
        let mut caption = [0; raw::LONGEST_JOINED];
        let letters = |word: &[u8]| word.iter().map(|&g| u32::from(g) + 1).sum();
        match (name, single) {
            ("step", Some(h)) => summed(asked, |a, b| raw::step(t, h, e(a), g(b))),
            ("step", None) => summed(asked, |a, b| raw::product_step(t, p, e(a), g(b))),
            ("compose", Some(h)) => summed(asked, |a, b| raw::compose(t, h, e(a), e(b))),
            ("compose", None) => summed(asked, |a, b| raw::product_compose(t, p, e(a), e(b))),
            ("conjugate", Some(h)) => summed(asked, |a, b| raw::conjugate(t, h, e(a), e(b))),
            ("conjugate", None) => summed(asked, |a, b| raw::product_conjugate(t, p, e(a), e(b))),
            ("inverse", Some(h)) => summed(asked, |a, _| raw::inverse(t, h, e(a))),
            ("inverse", None) => summed(asked, |a, _| raw::product_inverse(t, p, e(a))),
            ("word", Some(h)) => summed(asked, |a, _| raw::word(t, h, e(a), &mut word).map(|k| letters(&word[..k as usize]))),
            ("word", None) => summed(asked, |a, _| raw::product_word(t, p, e(a), &mut word).map(|k| letters(&word[..k as usize]))),
            ("powi", _) => summed(asked, |a, b| raw::product_powi(t, p, e(a), b as i32)),
            ("period", _) => summed(asked, |a, _| raw::product_period(t, p, e(a))),
            ("joined", _) => summed(asked, |_, _| raw::joined(t, p, &self.names, &mut caption)),
            ("project", _) => summed(asked, |a, b| raw::product_project(t, p, f(b), e(a))),
            _ => unsupported(),
        }
    }
}

impl Ours {
    pub(crate) fn bench(&mut self, w: &[&str]) -> Result<(), No> {
        let room = self.room;
        match w[0] {
            "enum" => {
                let (n, orders) = (number(w, 1)?, numbers(&w[2..])?);
                let mut lent = Room::new(n, room);
                self.least(|_| Ok(raw::enumerate(&mut lent.table, 0, &mut lent.work, &orders, n, room)?.elements))
            }
            "table" => {
                let (n, room) = (number(w, 1)?, room.min(number(w, 2)?));
                let rows = numbers(&w[3..])?;
                let mut lent = Room::new(n, room);
                self.least(|_| Ok(raw::composed(&mut lent.table, 0, &mut lent.work, &rows, n, room)?.elements))
            }
            "unimage" => {
                let image = image::bytes(w, 1)?;
                let (n, count) = image::head(&image);
                let mut lent = Room::new(n, count);
                self.least(|_| Ok(raw::image_read(&image, &mut lent.table, 0, &mut lent.work)?.elements))
            }
            "imgcheck" => {
                let image = image::bytes(w, 1)?;
                let (n, count) = image::head(&image);
                let mut work = vec![0; count as usize * (32 * usize::from(n).pow(2) + 100)];
                self.least(|_| Ok(raw::image_check(&image, &mut work)))
            }
            "flatten" => {
                let n = raw::product_generators(&self.product.table, &self.product.handles)? as u8;
                let room = raw::product_count(&self.product.table, &self.product.handles)?.min(65_535);
                let mut lent = Room::new(n, room);
                self.least(|p| Ok(raw::product_flatten(&p.table, &p.handles, n, &mut lent.table, 0, &mut lent.work, room)?.elements))
            }
            "sub" | "subpred" => {
                let listed = numbers(&w[1..])?;
                let members: Vec<u8> = listed.iter().map(|&x| u8::from(x != 0)).collect();
                let predicate = w[0] == "subpred";
                let over = raw::product_count(&self.product.table, &self.product.handles)?;
                let room = room.min(over);
                let mut lent = Room::new(if predicate { 8 } else { listed.len() as u8 }, room);
                let (mut inward, mut outward) = (vec![0; over as usize], vec![0; room as usize]);
                self.least(|p| {
                    let lent = SubgroupBuffers { table: &mut lent.table, work: &mut lent.work, inward: &mut inward, outward: &mut outward };
                    let made = match predicate {
                        true => raw::subgroup_predicate(&p.table, &p.handles, &members, lent, 0, room),
                        false => raw::subgroup(&p.table, &p.handles, &listed, lent, 0, room),
                    };
                    Ok(made?.elements)
                })
            }
            "s2o" | "o2s" => {
                let asked = pairs(number(w, 1)?);
                let sub = self.sub.clone().ok_or_else(|| "no subgroup".to_string())?;
                self.least(|_| sub.ask_often(w[0], &asked))
            }
            "walk" | "turns" => {
                let (asked, p) = (pairs(number(w, 1)?), &self.product);
                let (n, count) = (raw::product_generators(&p.table, &p.handles)?, raw::product_count(&p.table, &p.handles)?);
                let turns: Vec<u8> = asked.iter().map(|&(_, b)| (b % n) as u8).collect();
                let from = asked.first().map_or(0, |&(a, _)| a % count);
                let one_by_one = w[0] == "turns";
                self.least(|p| {
                    Ok(match p.single() {
                        Some(h) if one_by_one => turns.iter().try_fold(from, |e, &g| raw::step(&p.table, h, e, g))?,
                        None if one_by_one => turns.iter().try_fold(from, |e, &g| raw::product_step(&p.table, &p.handles, e, g))?,
                        Some(h) => raw::walk(&p.table, h, from, &turns)?,
                        None => raw::product_walk(&p.table, &p.handles, from, &turns)?,
                    })
                })
            }
            "alone" => {
                let parts = self.product.parts(w[1], &pairs(number(w, 2)?))?;
                self.least(|p| p.ask_alone(w[1], &parts))
            }
            "composes" | "inverses" | "powers" => {
                let (places, lists) = (number(w, 1)?, self.product.in_lists(w[0], &pairs(number(w, 2)?))?);
                self.least(|p| p.ask_lists(w[0], p.single(), places, &lists))
            }
            "product" if matches!(w[1], "composes" | "inverses" | "powers") => {
                let (places, lists) = (number(w, 2)?, self.product.in_lists(w[1], &pairs(number(w, 3)?))?);
                self.least(|p| p.ask_lists(w[1], None, places, &lists))
            }
            "product" => {
                let asked = pairs(number(w, 2)?);
                self.least(|p| p.ask_often(w[1], None, &asked))
            }
            name => {
                let asked = pairs(number(w, 1)?);
                self.least(|p| p.ask_often(name, p.single(), &asked))
            }
        }
    }

    fn least(&mut self, mut work: impl FnMut(&Product) -> Result<u32, No>) -> Result<(), No> {
        let (mut least, mut given) = (f64::MAX, 0);
        for _ in 0..3 {
            let start = std::time::Instant::now();
            given = work(&self.product)?;
            least = least.min(start.elapsed().as_secs_f64());
        }
        self.say(format!("{given} {least:.9}"));
        Ok(())
    }
}
