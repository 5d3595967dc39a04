//! Subgroups of the current product.
use super::*;
use hypergroup::raw::{Sides, SubgroupBuffers};
use safe::{Element, reached, same};

/// A subgroup: the overgroup's buffer and factors, the buffer of its own factor, and both maps.
#[derive(Clone)]
pub(crate) struct Sub {
    from: Vec<u32>,
    below: Vec<Handle>,
    over: Handles,
    above: Vec<Handle>,
    table: Vec<u32>,
    factor: Handle,
    inward: Vec<u32>,
    outward: Vec<u32>,
    /// How many elements the part of the overgroup has that the maps speak of.
    mapped: u32,
    /// The same subgroup by the safe type; none where this one is altered.
    pub(crate) safe: Option<safe::Subgroup>,
}

impl Sub {
    fn sides(&self) -> Sides {
        let listed = |side: &[Handle]| side.iter().copied().collect::<Handles>();
        Sides::new(self.factor, &listed(&self.below), &self.over, &listed(&self.above))
    }

    fn multiplied(&self) -> impl Iterator<Item = &Handle> {
        self.below.iter().chain(&self.above)
    }

    /// Generators, elements, and elements of the overgroup.
    fn counts(&self) -> (u32, u32, u32) {
        let beside: u32 = self.multiplied().map(|h| h.elements).product();
        let generators: u32 = self.multiplied().map(|h| u32::from(h.generators)).sum();
        (generators + u32::from(self.factor.generators), beside * self.factor.elements, beside * self.mapped)
    }

    fn over(&self, e: u32) -> Answer<u32> {
        let answer = raw::subgroup_over(&self.from, &self.table, &self.sides(), &self.outward, e);
        same(answer, self.safe.as_ref().map(|s| reached(s.to_overgroup(Element(e)))))
    }

    fn back(&self, x: u32) -> Answer<u32> {
        let answer = raw::subgroup_back(&self.from, &self.table, &self.sides(), &self.inward, x);
        same(answer, self.safe.as_ref().map(|s| s.to_subgroup(Element(x)).map(|e| e.map_or(u32::MAX, |e| e.0))))
    }

    fn generators(&self) -> Answer<Vec<u32>> {
        let generator = |g| raw::subgroup_generator(&self.from, &self.table, &self.sides(), &self.outward, g as u8);
        let all = (0..raw::subgroup_generators(&self.from, &self.table, &self.sides())?).map(generator).collect();
        same(all, self.safe.as_ref().map(|s| s.generators().map(|g| reached(s.generator(g))).collect()))
    }
}

impl Sub {
    /// One place of a map, over many arguments: the sum of the answers.
    pub(crate) fn ask_often(&self, name: &str, asked: &[(u32, u32)]) -> Result<u32, No> {
        let (sides, (_, elements, over)) = (self.sides(), self.counts());
        let out = |e| raw::subgroup_over(&self.from, &self.table, &sides, &self.outward, e);
        let back = |x| raw::subgroup_back(&self.from, &self.table, &sides, &self.inward, x);
        match name {
            "s2o" => bench::summed(asked, |a, _| out(a % elements)),
            _ => bench::summed(asked, |a, _| back(a % over)),
        }
    }
}

/// Both maps of a build that has ended, held to document 01.
fn held_maps(answer: &Answer<Handle>, needed: [usize; 2], before: [&[u32]; 2], after: [&[u32]; 2]) {
    let parts = |k: usize| after[k].split_at(needed[k].min(after[k].len()));
    let (inward, outward) = (parts(0), parts(1));
    let beyond = |k: usize| &before[k][needed[k].min(before[k].len())..];
    assert!(inward.1 == beyond(0) && outward.1 == beyond(1), "an excess was touched");
    let zero = inward.0.iter().chain(outward.0).all(|&x| x == 0);
    let untouched = before == after;
    match answer {
        Ok(h) => {
            assert!(outward.0[h.elements as usize..].iter().all(|&x| x == 0), "a place of a map beyond the last element is not zero");
            assert!(inward.0.iter().all(|&x| x < h.elements || x == u32::MAX), "a map leads nowhere");
        }
        Err(Refusal { number: 1..=4 | 14, .. }) => assert!(untouched, "refused arguments changed a map"),
        Err(Refusal { number: 15..=17, .. }) => assert!(untouched || zero, "a refusal left something in a map"),
        Err(_) => assert!(zero, "a refused build left something in a map"),
    }
}

/// The same subgroup by the safe type, which is told the room, and is not told it where that is all that there can be.
fn made_safe(
    answer: &Answer<Handle>,
    over: &safe::Product,
    room: u32,
    other: impl Fn(&safe::Product, Option<u32>) -> Option<Answer<safe::Subgroup>>,
) -> Option<safe::Subgroup> {
    let held = |made: Answer<safe::Subgroup>| {
        safe::with_name(b"", safe::made(answer, made.as_ref().map(|s| s.factor().clone()).map_err(|no| *no)));
        made.ok()
    };
    if room == over.element_count() {
        held(other(over, None)?);
    }
    held(other(over, Some(room))?)
}

impl Ours {
    /// `sub g0 g1 ..`, of the current product.
    pub(crate) fn sub(&mut self, w: &[&str]) -> Result<(), No> {
        let generators = numbers(w)?;
        let listed: Vec<Element> = generators.iter().copied().map(Element).collect();
        self.sub_built(
            generators.len(),
            |from, over, lent, start, room| raw::subgroup(from, over, &generators, lent, start, room),
            |over, room| match room {
                Some(room) => Some(safe::Subgroup::new_with_room(over, &listed, room)),
                None => Some(safe::Subgroup::new(over, &listed)),
            },
        )
    }

    /// `subpred b0 b1 ..`: a number for each element of the current product, not 0 for a member.
    pub(crate) fn sub_predicate(&mut self, w: &[&str]) -> Result<(), No> {
        let members = (0..w.len()).map(|i| number(w, i)).collect::<Result<Vec<u8>, No>>()?;
        let told = |e: Element| members[e.0 as usize] != 0;
        self.sub_built(
            8,
            |from, over, lent, start, room| raw::subgroup_predicate(from, over, &members, lent, start, room),
            |over, room| match room {
                // A list that does not have all elements is no predicate.
                _ if over.elements().nth(members.len()).is_some() && over.element_count() <= 65_535 => None,
                Some(room) => Some(safe::Subgroup::from_predicate_with_room(over, told, room)),
                None => Some(safe::Subgroup::from_predicate(over, told)),
            },
        )
    }

    /// Lends maps as well as table and work, and holds them to document 01.
    fn sub_built(
        &mut self,
        n: usize,
        call: impl FnOnce(&[u32], &Handles, SubgroupBuffers<'_>, usize, u32) -> Answer<Handle>,
        other: impl Fn(&safe::Product, Option<u32>) -> Option<Answer<safe::Subgroup>>,
    ) -> Result<(), No> {
        let whole = self.short == Short::default();
        let (from, over) = (self.product.table.clone(), self.product.handles.clone());
        let mapped = raw::product_count(&from, &over).unwrap_or(0);
        let size = if mapped <= 65_535 { mapped as usize } else { 0 };
        // A subgroup has no more elements than the overgroup, so that more room would change nothing.
        let room = if self.room <= 65_535 { self.room.min(size.max(1) as u32) } else { self.room };
        let short = [std::mem::take(&mut self.short.inward), std::mem::take(&mut self.short.outward)];
        let lent = |n: usize, short| vec![FILL; if short == 0 { n + MARGIN } else { n.saturating_sub(1) }];
        let (mut inward, mut outward) = (lent(size, short[0]), lent(room.min(65_535) as usize, short[1]));
        let before = [inward.clone(), outward.clone()];
        let (table, answer) = self.build_after(vec![], n, room, |table, start, work| {
            call(&from, &over, SubgroupBuffers { table, work, inward: &mut inward, outward: &mut outward }, start, room)
        });
        held_maps(&answer, [size, room as usize], [&before[0], &before[1]], [&inward, &outward]);
        let safe = self.product.safe.as_ref().filter(|_| whole).and_then(|p| made_safe(&answer, p, room, other));
        let sub = Sub { from, below: vec![], over, above: vec![], table, factor: answer?, inward, outward, mapped, safe };
        self.say_subgroup(&sub)?;
        let factor = sub.safe.as_ref().map(|s| s.factor().clone());
        self.say_factor(&Built { table: sub.table.clone(), handle: sub.factor, name: Name::default(), safe: factor })?;
        self.sub = Some(sub);
        Ok(())
    }

    /// `subleft enum|table ..` or `subright ..`: a factor that is built behind the overgroup's.
    pub(crate) fn sub_beside(&mut self, w: &[&str]) -> Result<(), No> {
        let mut sub = self.sub.clone().ok_or_else(|| "no subgroup".to_string())?;
        let sides = sub.sides();
        let made = self.made(std::mem::take(&mut sub.from), &w[1..])?;
        let (factor, _) = made.answer?;
        sub.from = made.table;
        let (more, left) = ([factor].into_iter().collect(), w[0] == "subleft");
        let answer = match left {
            true => raw::subgroup_left(&sub.from, &sub.table, &more, &sides),
            false => raw::subgroup_right(&sub.from, &sub.table, &sides, &more),
        };
        let multiplied = if left { safe::Subgroup::multiplied_left } else { safe::Subgroup::multiplied_right };
        let safe = sub.safe.take().zip(made.safe).map(|(s, f)| multiplied(&s, &safe::Product::from(&f)));
        same(answer, safe.as_ref().map(|made| made.as_ref().map(drop).map_err(|no| *no)))?;
        sub.safe = safe.and_then(Result::ok);
        if left {
            sub.below.insert(0, factor)
        } else {
            sub.above.push(factor)
        }
        self.say_subgroup(&sub)?;
        self.sub = Some(sub);
        Ok(())
    }

    fn say_subgroup(&mut self, sub: &Sub) -> Result<(), No> {
        let (n, inside, outside) = sub.counts();
        if let Some(s) = &sub.safe {
            let counts = (s.generator_count().into(), s.element_count(), s.overgroup().element_count());
            assert_eq!((n, inside, outside), counts, "the safe subgroup has other counts");
        }
        let over = (0..inside).map(|e| sub.over(e)).collect::<Answer<Vec<_>>>()?;
        let back = (0..outside).map(|x| sub.back(x)).collect::<Answer<Vec<_>>>()?;
        self.say(format!("ok {n} {inside} of {outside}"));
        self.say_long("s2o", &over);
        self.say_long("o2s", &back);
        Ok(())
    }

    /// `s2o x`, `o2s x` and `subgens`.
    pub(crate) fn sub_question(&mut self, w: &[&str]) -> Result<(), No> {
        let sub = self.sub.as_ref().ok_or_else(|| "no subgroup".to_string())?;
        let line = match w[0] {
            "s2o" => sub.over(number(w, 1)?)?.to_string(),
            "o2s" => sub.back(number(w, 1)?)?.to_string(),
            _ => say::listed(&sub.generators()?),
        };
        self.say(line);
        Ok(())
    }

    /// `altermap I V` stores V at the I-th number of both maps, `altersub I V` in the subgroup's table.
    pub(crate) fn alter_sub(&mut self, what: &str, i: usize, v: u32) {
        let Some(sub) = &mut self.sub else { return };
        sub.safe = None;
        let lists = if what == "altermap" { vec![&mut sub.inward, &mut sub.outward] } else { vec![&mut sub.table] };
        for list in lists {
            if !list.is_empty() {
                let at = i % list.len();
                list[at] = v;
            }
        }
    }
}
