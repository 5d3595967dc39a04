//! The oracle's commands, one a line on standard input; oracle/README.md
//! lists them.
use std::io::{BufRead, BufWriter, Stdout, Write};
use std::panic::{AssertUnwindSafe, catch_unwind};
use std::sync::{Arc, Mutex};

use crate::check::*;
use crate::coxeter::{todd_coxeter, todd_coxeter_traced};
use crate::*;

hypuz_util::typed_index_struct!(pub struct NoPoint(u32));

/// An answer's lines, or the line that says why there is none.
type Answer<T> = Result<T, String>;

/// What the hook saw of the last panic.
static LAST_PANIC: Mutex<String> = Mutex::new(String::new());

/// Runs the originals. An error or a panic becomes the line to print.
fn guard<T>(f: impl FnOnce() -> GroupResult<T>) -> Answer<T> {
    match catch_unwind(AssertUnwindSafe(f)) {
        Ok(Ok(x)) => Ok(x),
        Ok(Err(GroupError::BadInverse(a, b, c))) => Err(format!("err BadInverse {a} {b} {c}")),
        Ok(Err(GroupError::IndexOverflow(i))) => Err(format!("err IndexOverflow {}", i.0)),
        Ok(Err(e)) => Err(format!("err {e:?}")),
        Err(_) => Err(format!("panic {}", panic_name(&LAST_PANIC.lock().unwrap()))),
    }
}
/// A name for the panics that the originals are known to end in, since the
/// compiler's wording of them changes between versions.
fn panic_name(message: &str) -> String {
    for (part, name) in [
        ("must not skip", "skip"),
        ("index out of bounds", "index"),
        ("divide by zero", "divide"),
        ("divisor of zero", "divide"),
    ] {
        if message.contains(part) {
            return name.into();
        }
    }
    message.lines().skip(1).collect::<Vec<_>>().join(" ")
}
fn with_room<T>(room: usize, f: impl FnOnce() -> T) -> T {
    let old = ROOM.swap(room, Ordering::Relaxed);
    let x = f();
    ROOM.store(old, Ordering::Relaxed);
    x
}

fn number<T: std::str::FromStr>(words: &[&str], i: usize) -> Answer<T> {
    let w = words.get(i).ok_or("missing argument")?;
    w.parse().map_err(|_| format!("bad number {w}"))
}
fn numbers<T: std::str::FromStr>(words: &[&str]) -> Answer<Vec<T>> {
    (0..words.len()).map(|i| number(words, i)).collect()
}
fn element(words: &[&str], i: usize) -> Answer<GroupElementId> {
    number(words, i).map(GroupElementId)
}

fn matrix(n: usize, orders: &[u16]) -> Answer<CoxeterMatrix> {
    if orders.len() != n * n.saturating_sub(1) / 2 {
        return Err("bad order list length".into());
    }
    guard(|| CoxeterMatrix::from_pair_orders(n as u8, orders))
}
fn from_orders(label: &str, n: usize, orders: &[u16]) -> Answer<AbstractGroupLut> {
    let m = matrix(n, orders)?;
    guard(|| todd_coxeter::construct_group(label.to_string(), &m))
}
/// Reads `table` as rows of n numbers. The room is not more than the rows
/// given, so that no number is asked for that is not there.
fn from_rows(label: &str, n: usize, rows: usize, table: &[u32]) -> Answer<AbstractGroupLut> {
    if table.len() < n * rows {
        return Err("bad table length".into());
    }
    let at = |e: u32, g: u8| table[e as usize * n + g as usize];
    trace::reset();
    let lut = with_room(rows.min(ROOM.load(Ordering::Relaxed)), || {
        guard(|| {
            AbstractGroupLut::from_compose_fn(label.to_string(), n, |e, g| {
                trace::read(e.0, g.0);
                Ok(GroupElementId(at(e.0, g.0)))
            })
        })
    });
    lut.map_err(|line| {
        let (e, g) = trace::place();
        let read = table.get(e as usize * n + g as usize).unwrap_or(&0);
        format!("{line} last-read {e} {g} {read}")
    })
}
/// `enum n orders..` or `table n N rows..`
fn factor(label: &str, words: &[&str]) -> Answer<AbstractGroupLut> {
    let n = number(words, 1)?;
    match words[0] {
        "enum" => from_orders(label, n, &numbers(&words[2..])?),
        "table" => from_rows(label, n, number(words, 2)?, &numbers(&words[3..])?),
        x => Err(format!("bad factor kind {x}")),
    }
}
/// Bytes in hex; `-` for none.
fn bytes(words: &[&str], i: usize) -> Answer<Vec<u8>> {
    let text = words.get(i).ok_or("missing argument")?;
    let text = if *text == "-" { "" } else { text };
    let pair = |k| text.get(k..k + 2).and_then(|x| u8::from_str_radix(x, 16).ok());
    let all = (0..text.len()).step_by(2).map(pair).collect::<Option<_>>();
    all.ok_or(format!("bad bytes {text}"))
}
/// The group as an action on no points, for subgroup_action.rs.
/// What a subgroup is told by: its generators, or a number for each element.
enum Told {
    Generators(PerGenerator<GroupElementId>),
    Members(Vec<u8>),
}

fn told(w: &[&str]) -> Answer<Told> {
    if w[0] == "sub" {
        let listed = (1..w.len()).map(|i| element(w, i)).collect::<Answer<Vec<_>>>()?;
        return Ok(Told::Generators(listed.into()));
    }
    Ok(Told::Members(numbers(&w[1..])?))
}

impl Told {
    fn subgroup(&self, act: &GroupAction<NoPoint>) -> Answer<SubgroupAction<NoPoint>> {
        match self {
            Told::Generators(listed) => guard(|| SubgroupAction::new(act, listed)),
            Told::Members(bytes) => guard(|| {
                SubgroupAction::from_subgroup_predicate(act, |e| bytes[e.0 as usize] != 0)
            }),
        }
    }
}

fn action_of(g: &Group) -> GroupResult<GroupAction<NoPoint>> {
    let mut factors = vec![];
    for f in g.direct_product_decomposition().iter_values() {
        factors.push(Arc::new(AbstractGroupActionLut::from_fn(
            Arc::clone(f),
            0,
            |_, p| Ok(p),
        )?));
    }
    GroupAction::from_factors(factors)
}

/// FNV-1a over numbers in place of bytes.
struct Digest(u64);
impl Digest {
    fn new() -> Self {
        Digest(0xcbf29ce484222325)
    }
    fn add(&mut self, x: u64) {
        self.0 = (self.0 ^ x).wrapping_mul(0x100000001b3);
    }
}

struct Oracle {
    out: BufWriter<Stdout>,
    quiet: bool,
    /// The label of every factor that is made; none for bytes that are no text,
    /// which no label can be.
    label: Option<String>,
    /// Whether every factor since the last `clear` has its label.
    labelled: bool,
    factors: Vec<Group>,
    group: Group,
    sub: Option<SubgroupAction<NoPoint>>,
    builder: Option<AbstractGroupLutBuilder>,
}

impl Oracle {
    fn say(&mut self, line: impl std::fmt::Display) {
        writeln!(self.out, "{line}").unwrap();
    }
    fn say_list(&mut self, head: &str, list: impl IntoIterator<Item = u32>) {
        write!(self.out, "{head}").unwrap();
        for x in list {
            write!(self.out, " {x}").unwrap();
        }
        writeln!(self.out).unwrap();
    }
    /// A list that grows with the group: its digest when quiet.
    fn say_long(&mut self, head: &str, list: impl IntoIterator<Item = u32>) {
        if !self.quiet {
            return self.say_list(head, list);
        }
        let mut h = Digest::new();
        list.into_iter().for_each(|x| h.add(x as u64));
        self.say(format!("{head} fnv {:016x}", h.0));
    }
    fn say_factor(&mut self, g: &AbstractGroupLut) {
        let (n, count, steps) = rows(g);
        if self.quiet {
            let mut h = Digest::new();
            let mut longest = 0;
            for e in g.elements() {
                let word = g.factorization(e);
                h.add(g.inverse(e).0 as u64);
                h.add(word.len() as u64);
                word.iter().for_each(|k| h.add(k.0 as u64));
                steps[e.0 as usize * n..][..n]
                    .iter()
                    .for_each(|&x| h.add(x as u64));
                longest = longest.max(word.len());
            }
            return self.say(format!("ok {n} {count} maxword {longest} fnv {:016x}", h.0));
        }
        self.say(format!("ok {n} {count}"));
        for e in g.elements() {
            let word: Vec<String> = g.factorization(e).iter().map(|k| k.to_string()).collect();
            let word = if word.is_empty() {
                "-".into()
            } else {
                word.join(",")
            };
            let head = format!("{e} {} {word}", g.inverse(e));
            self.say_list(&head, steps[e.0 as usize * n..][..n].iter().copied());
        }
        self.say("end");
    }
    fn say_subgroup(&mut self, s: &SubgroupAction<NoPoint>) {
        let g = s.subgroup_action.group();
        let (inside, outside) = (
            g.element_count() as u32,
            s.overgroup().element_count() as u32,
        );
        self.say(format!("ok {} {inside} of {outside}", g.generators().len()));
        self.say_long(
            "s2o",
            (0..inside).map(|i| s.subgroup_to_overgroup(GroupElementId(i)).0),
        );
        self.say_long(
            "o2s",
            (0..outside).map(|i| {
                s.overgroup_to_subgroup(GroupElementId(i))
                    .map_or(u32::MAX, |x| x.0)
            }),
        );
        // A product of a subgroup with factors is not printed by rows.
        if let [f] = &**g.direct_product_decomposition() {
            self.say_factor(f);
        }
    }
    /// A factor with the current label.
    fn factor(&mut self, words: &[&str]) -> Answer<AbstractGroupLut> {
        self.labelled &= self.label.is_some();
        factor(self.label.as_deref().unwrap_or_default(), words)
    }
    /// A label, in hex, where all labels are those that were asked for.
    fn say_label(&mut self, label: String) -> Answer<()> {
        if !self.labelled {
            return Err("unsupported".into());
        }
        let hex: String = label.bytes().map(|x| format!("{x:02x}")).collect();
        self.say(format!("ok {}", if hex.is_empty() { "-" } else { &hex }));
        Ok(())
    }
    fn subgroup(&self) -> Answer<&SubgroupAction<NoPoint>> {
        self.sub.as_ref().ok_or("no subgroup".into())
    }

    fn answer(&mut self, w: &[&str]) -> Answer<()> {
        match w[0] {
            "room" => ROOM.store(number(w, 1)?, Ordering::Relaxed),
            "quiet" => self.quiet = number::<u8>(w, 1)? != 0,
            "clear" => {
                self.factors.clear();
                self.group = Group::trivial();
                self.sub = None;
                self.labelled = true;
            }
            "name" => self.label = String::from_utf8(bytes(w, 1)?).ok(),
            // There is no buffer that a label has to fit.
            "joined" => self.say_label(self.group.label())?,
            "flatname" => self.say_label(guard(|| self.group.flatten())?.label())?,
            "subname" => self.say_label(self.subgroup()?.subgroup_action.group().label())?,
            // Altered records, of which the Rust has none.
            "forgename" | "forgecount" => {
                self.labelled = false;
                return Err("unsupported".into());
            }
            "enum" | "table" => {
                let g = self.factor(w)?;
                self.say_factor(&g);
            }
            "bench" => self.bench(&w[1..])?,
            "place" => self.place(w)?,
            "check" => self.check(&w[1..])?,
            "against" => self.against(&w[1..])?,
            "factor" => {
                let g = self.factor(&w[1..])?;
                self.factors.push(guard(|| Group::try_from(g))?);
                self.say(format!("ok {}", self.factors.len()));
            }
            "prod" => {
                self.group = guard(|| Group::product(self.factors.iter()))?;
                let (n, count) = (self.group.generators().len(), self.group.element_count());
                self.say(format!("ok {n} {count}"));
            }
            "builder" => {
                let n = number(w, 1)?;
                self.labelled &= self.label.is_some();
                let label = self.label.clone().unwrap_or_default();
                self.builder = Some(guard(|| AbstractGroupLutBuilder::new(label, n))?);
                self.say("ok");
            }
            "add" | "set" => self.grow(w)?,
            "build" => {
                let b = self.builder.take().ok_or("no builder")?;
                let g = guard(|| b.build())?;
                self.say_factor(&g);
                self.group = guard(|| Group::try_from(g))?;
            }
            "flatten" => {
                let flat = guard(|| self.group.flatten())?;
                match flat.direct_product_decomposition().first() {
                    Some(f) => self.say_factor(f),
                    None => self.say_factor(&AbstractGroupLut::new_trivial()),
                }
            }
            "sub" | "subpred" => {
                let s = self.make_subgroup(w)?;
                self.say_subgroup(&s);
                self.sub = Some(s);
            }
            "subtrivial" => {
                let s = SubgroupAction::trivial();
                self.say_subgroup(&s);
                self.sub = Some(s);
            }
            "overgroup" => {
                self.group = self.subgroup()?.overgroup().clone();
                let (n, count) = (self.group.generators().len(), self.group.element_count());
                self.say(format!("ok {n} {count}"));
            }
            "subleft" | "subright" => {
                let s = self.subgroup()?.clone();
                let g = self.factor(&w[1..])?;
                let act = guard(|| action_of(&Group::try_from(g)?))?;
                let s = guard(|| match w[0] {
                    "subleft" => SubgroupAction::direct_product_left(&act, s),
                    _ => SubgroupAction::direct_product_right(s, &act),
                })?;
                self.say_subgroup(&s);
                self.sub = Some(s);
            }
            _ => self.question(w)?,
        }
        Ok(())
    }

    /// `add e g` and `set e g r`, by the original builder. They are tried on a
    /// copy, so that one that panics leaves the builder as it was; an error
    /// ends the build.
    fn grow(&mut self, w: &[&str]) -> Answer<()> {
        let (e, g) = (element(w, 1)?, GeneratorId(number(w, 2)?));
        let mut b = self.builder.clone().ok_or("no builder")?;
        if w[0] == "set" {
            let r = element(w, 3)?;
            let new = guard(|| Ok(b.set_successor(e, g, r)))?;
            self.builder = Some(b);
            self.say(if new { "new" } else { "known" });
            return Ok(());
        }
        match guard(|| b.add_successor(e, g)) {
            Ok(x) => {
                self.builder = Some(b);
                self.say(x);
                Ok(())
            }
            Err(line) => {
                if line.starts_with("err") {
                    self.builder = None;
                }
                Err(line)
            }
        }
    }

    /// The least seconds of three, and a number that the same work gives again:
    /// of a factor its size, of a subgroup or a flattened product too, of
    /// questions the sum of their answers.
    fn bench(&mut self, w: &[&str]) -> Answer<()> {
        let mut least = f64::MAX;
        let mut given = 0;
        let asked = match w[0] {
            "enum" | "table" | "sub" | "subpred" | "flatten" => vec![],
            "composes" | "inverses" | "powers" => self.elements(w[0], pairs(number(w, 2)?)),
            _ => pairs(number(w, 1)?),
        };
        // What the calls are given is made ready before the clock starts.
        let made = match w[0] {
            "sub" | "subpred" => Some((told(w)?, guard(|| action_of(&self.group))?)),
            _ => None,
        };
        let (n, count) = (self.group.generators().len() as u32, self.group.element_count() as u32);
        let turns: Vec<GeneratorId> = match w[0] {
            "walk" => asked.iter().map(|&(_, b)| GeneratorId((b % n) as u8)).collect(),
            _ => vec![],
        };
        for _ in 0..3 {
            let start = std::time::Instant::now();
            given = match w[0] {
                "enum" | "table" => factor("", w)?.element_count() as u32,
                "sub" | "subpred" => {
                    let (told, act) = made.as_ref().expect("made above");
                    told.subgroup(act)?.subgroup_action.group().element_count() as u32
                }
                "flatten" => guard(|| self.group.flatten())?.element_count() as u32,
                "walk" => {
                    let from = GroupElementId(asked.first().map_or(0, |&(a, _)| a % count));
                    turns.iter().fold(from, |e, &g| self.group.compose_elem_generator(e, g)).0
                }
                _ => self.ask_often(w[0], &asked)?,
            };
            least = least.min(start.elapsed().as_secs_f64());
        }
        self.say(format!("{given} {least:.9}"));
        Ok(())
    }
    /// Arguments as they stand in lists, `bench composes 0 TURNS` and so on: elements already, and of powers an exponent beside each.
    fn elements(&self, name: &str, asked: Vec<(u32, u32)>) -> Vec<(u32, u32)> {
        let count = self.group.element_count() as u32;
        let second = |b| if name == "powers" { b } else { b % count };
        asked.into_iter().map(|(a, b)| (a % count, second(b))).collect()
    }
    /// The sum of the answers to one question, over many arguments.
    fn ask_often(&self, name: &str, asked: &[(u32, u32)]) -> Answer<u32> {
        let g = &self.group;
        let (n, count) = (g.generators().len() as u32, g.element_count() as u32);
        let e = |x: u32| GroupElementId(x % count);
        let sum = |f: &dyn Fn(u32, u32) -> u32| {
            asked.iter().fold(0u32, |s, &(a, b)| s.wrapping_add(f(a, b)))
        };
        Ok(match name {
            "step" => sum(&|a, b| g.compose_elem_generator(e(a), GeneratorId((b % n) as u8)).0),
            "compose" => sum(&|a, b| g.compose(e(a), e(b)).0),
            "composes" => sum(&|a, b| g.compose(GroupElementId(a), GroupElementId(b)).0),
            "inverses" => sum(&|a, _| g.inverse(GroupElementId(a)).0),
            "powers" => sum(&|a, b| g.powi(GroupElementId(a), b as i32).0),
            "conjugate" => sum(&|a, b| g.conjugate(e(a), e(b)).0),
            "inverse" => sum(&|a, _| g.inverse(e(a)).0),
            "powi" => sum(&|a, b| g.powi(e(a), b as i32).0),
            "period" => sum(&|a, _| g.period(e(a)) as u32),
            "joined" => sum(&|_, _| g.label().len() as u32),
            "word" => sum(&|a, _| g.factorization(e(a)).map(|k| k.0 as u32 + 1).sum()),
            "project" => {
                let factors = self.factors.len().max(1) as u32;
                sum(&|a, b| g.project_element_to_factor(FactorGroup((b % factors) as u8), e(a)).0)
            }
            "s2o" => {
                let s = self.subgroup()?;
                let elements = s.subgroup_action.group().element_count() as u32;
                sum(&|a, _| s.subgroup_to_overgroup(GroupElementId(a % elements)).0)
            }
            "o2s" => {
                let s = self.subgroup()?;
                sum(&|a, _| s.overgroup_to_subgroup(e(a)).map_or(u32::MAX, |x| x.0))
            }
            x => return Err(format!("no question {x}")),
        })
    }
    fn make_subgroup(&self, w: &[&str]) -> Answer<SubgroupAction<NoPoint>> {
        told(w)?.subgroup(&guard(|| action_of(&self.group))?)
    }

    /// Questions about the current product and subgroup.
    fn question(&mut self, w: &[&str]) -> Answer<()> {
        let g = &self.group;
        let one = |x: GroupElementId| vec![x.0];
        let (head, list) = match w[0] {
            "gens" => ("ok", g.generators().iter_values().map(|x| x.0).collect()),
            "step" => {
                let (e, k) = (element(w, 1)?, GeneratorId(number(w, 2)?));
                ("", guard(|| Ok(one(g.compose_elem_generator(e, k))))?)
            }
            "compose" => {
                let (a, b) = (element(w, 1)?, element(w, 2)?);
                ("", guard(|| Ok(one(g.compose(a, b))))?)
            }
            "conjugate" => {
                let (a, b) = (element(w, 1)?, element(w, 2)?);
                ("", guard(|| Ok(one(g.conjugate(a, b))))?)
            }
            "inverse" => {
                let a = element(w, 1)?;
                ("", guard(|| Ok(one(g.inverse(a))))?)
            }
            "powi" => {
                let (a, i) = (element(w, 1)?, number(w, 2)?);
                ("", guard(|| Ok(one(g.powi(a, i))))?)
            }
            "period" => {
                let a = element(w, 1)?;
                if guard(|| Ok(never_ends(g, a)))? {
                    self.say("loop");
                    return Ok(());
                }
                ("", vec![guard(|| Ok(g.period(a) as u32))?])
            }
            "word" => {
                let a = element(w, 1)?;
                (
                    "ok",
                    guard(|| Ok(g.factorization(a).map(|k| k.0 as u32).collect()))?,
                )
            }
            "split" => {
                let a = element(w, 1)?;
                (
                    "ok",
                    guard(|| Ok(g.element_to_factors(a).map(|e| e.0).collect()))?,
                )
            }
            "join" => {
                let v = (1..w.len())
                    .map(|i| element(w, i))
                    .collect::<Answer<Vec<_>>>()?;
                ("", guard(|| Ok(one(g.element_from_factors(v))))?)
            }
            "project" => {
                let (f, a) = (FactorGroup(number(w, 1)?), element(w, 2)?);
                ("", guard(|| Ok(one(g.project_element_to_factor(f, a))))?)
            }
            "inject" => {
                let (f, a) = (FactorGroup(number(w, 1)?), element(w, 2)?);
                ("", guard(|| Ok(one(g.element_from_factor(f, a))))?)
            }
            "s2o" => {
                let (a, s) = (element(w, 1)?, self.subgroup()?);
                ("", guard(|| Ok(one(s.subgroup_to_overgroup(a))))?)
            }
            "o2s" => {
                let (a, s) = (element(w, 1)?, self.subgroup()?);
                let x = guard(|| Ok(s.overgroup_to_subgroup(a)))?;
                ("", vec![x.map_or(u32::MAX, |x| x.0)])
            }
            "subgens" => {
                let s = self.subgroup()?;
                (
                    "ok",
                    guard(|| Ok(s.subgroup_generators().iter().map(|x| x.0).collect()))?,
                )
            }
            x => return Err(format!("unknown command {x}")),
        };
        match (head, &list[..]) {
            ("", [x]) => self.say(x),
            _ => self.say_list(head, list),
        }
        Ok(())
    }

    /// A traced run: where a new element was last asked for, and where a word
    /// first passed the limit, with the element count there.
    fn place(&mut self, w: &[&str]) -> Answer<()> {
        let m = matrix(number(w, 1)?, &numbers::<u16>(&w[2..])?)?;
        trace::reset();
        let head = match guard(|| todd_coxeter_traced::construct_group("", &m)) {
            Ok(g) => format!("ok {} {}", m.generator_count(), g.element_count()),
            Err(line) => line,
        };
        let (e, g) = trace::place();
        match trace::long() {
            None => self.say(format!("{head} at {e} {g}")),
            Some((x, k, count)) => self.say(format!("{head} at {e} {g} long {x} {k} {count}")),
        }
        Ok(())
    }

    fn check(&mut self, w: &[&str]) -> Answer<()> {
        let (n, count, s) = rows(&factor("", w)?);
        let mut line = format!(
            "ok {n} {count} group {} numbered {}",
            is_group(n, count, &s),
            numbered_by_first_appearance(n, count, &s)
        );
        if w[0] == "enum" {
            let orders: Vec<u16> = numbers(&w[2..])?;
            line += &format!(
                " relations {} exact {} classified {}",
                relation_failure(n, count, &s, &orders).is_none(),
                pair_orders(n, &s) == orders,
                coxeter_order(n, &orders).map_or("infinite".into(), |x| x.to_string())
            );
        }
        self.say(line);
        Ok(())
    }

    /// `against table n N rows.. | orders..`
    fn against(&mut self, w: &[&str]) -> Answer<()> {
        let bar = w.iter().position(|x| *x == "|").ok_or("missing argument")?;
        let (n, count, s) = rows(&factor("", &w[..bar])?);
        let orders: Vec<u16> = numbers(&w[bar + 1..])?;
        if orders.len() != n * n.saturating_sub(1) / 2 {
            return Err("bad order list length".into());
        }
        match relation_failure(n, count, &s, &orders) {
            None => self.say("ok"),
            Some((e, g, h)) => self.say(format!("fails {e} {g} {h}")),
        }
        Ok(())
    }
}

/// Arguments for `bench`, the same each time.
fn pairs(count: usize) -> Vec<(u32, u32)> {
    let mut x = 1u64;
    let mut next = || {
        x = x.wrapping_mul(6364136223846793005).wrapping_add(1442695040888963407);
        (x >> 32) as u32
    };
    (0..count).map(|_| (next(), next())).collect()
}

/// Whether `period` would run for ever: then no power comes to the identity
/// within as many steps as there are elements.
fn never_ends(g: &Group, a: GroupElementId) -> bool {
    let mut x = a;
    for _ in 0..=g.element_count().min(10_000_000) {
        if x == GroupElementId::IDENTITY {
            return false;
        }
        x = g.compose(x, a);
    }
    true
}

/// With the argument `--echo` each command is printed before its answer, as
/// `> command`.
pub fn main() {
    std::panic::set_hook(Box::new(|i| *LAST_PANIC.lock().unwrap() = i.to_string()));
    let echo = std::env::args().any(|a| a == "--echo");
    let mut oracle = Oracle {
        out: BufWriter::new(std::io::stdout()),
        quiet: false,
        label: Some(String::new()),
        labelled: true,
        factors: vec![],
        group: Group::trivial(),
        sub: None,
        builder: None,
    };
    for line in std::io::stdin().lock().lines() {
        let line = line.unwrap();
        let words: Vec<&str> = line.split_whitespace().collect();
        if words.is_empty() || words[0].starts_with('#') {
            continue;
        }
        if echo {
            oracle.say(format!("> {}", line.trim()));
        }
        if let Err(line) = oracle.answer(&words) {
            oracle.say(line);
        }
        oracle.out.flush().unwrap();
    }
}
