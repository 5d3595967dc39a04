//! Builds: buffers are lent with a margin, and what a call leaves in them is held to document 01.
use super::*;
use std::ops::Range;

/// The buffers of one build: which part of each is needed.
#[derive(Clone)]
pub(crate) struct Lent {
    pub(crate) table: Vec<u32>,
    pub(crate) stretch: Range<usize>,
    pub(crate) work: Vec<u32>,
    needed: usize,
}

/// What a build gives: its table buffer, the verdict with the name beside it, and the same by a safe type.
pub(crate) struct Made {
    pub(crate) table: Vec<u32>,
    pub(crate) answer: Answer<(Handle, Name)>,
    pub(crate) safe: Option<safe::Factor>,
}

impl Ours {
    /// Adds a stretch with a margin on both sides to a table buffer, and lends work with a margin.
    pub(crate) fn lend(&mut self, mut table: Vec<u32>, n: usize, room: u32) -> Lent {
        let sized = if n <= 8 && room <= 65_535 { room } else { 1 };
        let (tn, wn) = (raw::table_need(n.min(8) as u8, sized), raw::work_need(n.min(8) as u8, sized));
        let Short { table: short_table, work: short_work, .. } = self.short;
        (self.short.table, self.short.work, self.short.rows) = (0, 0, 0);
        let start = table.len() + MARGIN;
        table.resize(start + tn + if short_table == 0 { MARGIN } else { 0 } - short_table, FILL);
        let mut work = vec![FILL; wn + if short_work == 0 { MARGIN } else { 0 }];
        work.truncate(work.len().saturating_sub(short_work));
        let stretch = start..(start + tn).min(table.len());
        Lent { table, stretch, needed: wn.min(work.len()), work }
    }

    /// Calls on lent buffers, and holds what they are left with to document 01, whatever the answer.
    pub(crate) fn call(
        &self,
        mut lent: Lent,
        call: impl FnOnce(&mut [u32], usize, &mut [u32]) -> Answer<Handle>,
    ) -> (Lent, Answer<Handle>) {
        let (table, work) = (lent.table.clone(), lent.work.clone());
        let answer = call(&mut lent.table, lent.stretch.start, &mut lent.work);
        let (t, w, s) = (&lent.table, &lent.work, lent.stretch.clone());
        let (around, beyond) = ([&t[..s.start], &t[s.end..]], &w[lent.needed..]);
        assert!(around == [&table[..s.start], &table[s.end..]] && beyond == &work[lent.needed..], "an excess was touched");
        let (inside, used) = (&t[s], &w[..lent.needed]);
        let zero = inside.iter().chain(used).all(|&x| x == 0);
        let untouched = *t == table && *w == work;
        match &answer {
            Ok(h) => {
                let rows = raw::table_need(h.generators, h.elements);
                assert!(inside[rows..].iter().all(|&x| x == 0), "a row beyond the last element is not zero");
                assert!(used.iter().all(|&x| x == 0), "the work is not zero");
            }
            Err(Refusal { number: 1..=4 | 14 | 18, .. }) => assert!(untouched, "refused arguments changed a buffer"),
            // Before a build starts these change nothing, and once it has started they leave zeros.
            Err(Refusal { number: 15..=17, .. }) => assert!(untouched || zero, "a refusal left something"),
            Err(_) => assert!(zero, "a refused build left something"),
        }
        (lent, answer)
    }

    /// The same after a table buffer, which comes back as it was where the build is refused.
    pub(crate) fn build_after(
        &mut self,
        base: Vec<u32>,
        n: usize,
        room: u32,
        call: impl FnOnce(&mut [u32], usize, &mut [u32]) -> Answer<Handle>,
    ) -> (Vec<u32>, Answer<Handle>) {
        let len = base.len();
        let lent = self.lend(base, n, room);
        let (mut lent, answer) = self.call(lent, call);
        if answer.is_err() {
            lent.table.truncate(len);
        }
        (lent.table, answer)
    }

    /// The same with no other factor in the table buffer; and by a safe type, where no buffer is short and something is to be asked.
    pub(crate) fn build_in(
        &mut self,
        n: usize,
        room: u32,
        call: impl FnOnce(&mut [u32], usize, &mut [u32]) -> Answer<Handle>,
        other: impl FnOnce(&Answer<Handle>) -> Option<safe::Factor>,
    ) -> Result<Built<safe::Factor>, No> {
        let whole = self.short == Short::default();
        let (table, answer) = self.build_after(vec![], n, room, call);
        let safe = safe::with_name(b"", if whole { other(&answer) } else { None });
        Ok(Built { table, handle: answer?, name: Name::default(), safe })
    }

    /// `enum n orders..` or `table n N rows..`, after a table buffer.
    pub(crate) fn made(&mut self, base: Vec<u32>, w: &[&str]) -> Result<Made, No> {
        let n: usize = number(w, 1)?;
        let k = n.min(255) as u8;
        let whole = self.short == Short::default();
        match w[0] {
            "table" => {
                let room = self.room.min(number(w, 2)?);
                let mut rows = numbers(&w[3..])?;
                if self.short.rows > 0 {
                    rows.truncate((room as usize * n).saturating_sub(1));
                }
                let plain = |t: &mut [u32], start, work: &mut [u32]| raw::composed(t, start, work, &rows, k, room);
                let named = |t: &mut [u32], start, work: &mut [u32], name: &[u8]| raw::composed_named(t, start, work, &rows, k, room, name);
                let (table, answer) = self.build_named(base, n, room, plain, named);
                let safe = if whole { safe::composed(&answer, k, &rows, room, &self.name) } else { None };
                Ok(Made { table, answer, safe })
            }
            "enum" => {
                let (orders, room) = (numbers(&w[2..])?, self.room);
                let plain = |t: &mut [u32], start, work: &mut [u32]| raw::enumerate(t, start, work, &orders, k, room);
                let named =
                    |t: &mut [u32], start, work: &mut [u32], name: &[u8]| raw::enumerate_named(t, start, work, &orders, k, room, name);
                let (table, answer) = self.build_named(base, n, room, plain, named);
                let other = || safe::Factor::named(&self.name).from_orders(k, &orders, room);
                let safe = if whole { safe::made_named(&answer, other()) } else { None };
                Ok(Made { table, answer, safe })
            }
            _ => unsupported(),
        }
    }

    pub(crate) fn build(&mut self, w: &[&str]) -> Result<Built<safe::Factor>, No> {
        let Made { table, answer, safe } = self.made(vec![], w)?;
        let (handle, name) = answer?;
        Ok(Built { table, handle, name, safe })
    }

    /// A factor more, behind the others in their buffer.
    pub(crate) fn add_factor(&mut self, w: &[&str]) -> Result<(), No> {
        let Made { table, answer, safe } = self.made(self.space.clone(), w)?;
        self.space = table;
        let (handle, name) = answer?;
        self.factors.push(handle);
        self.names.push(name);
        self.safe.push(safe);
        self.say(format!("ok {}", self.factors.len()));
        Ok(())
    }

    /// `builder n`, with the current room.
    pub(crate) fn begin(&mut self, n: usize) -> Result<(), No> {
        let room = self.room;
        let whole = self.short == Short::default();
        let mut lent = self.lend(vec![], n, room);
        let (before, s) = (lent.table.clone(), lent.stretch);
        let mut plain = before.clone();
        let unnamed = raw::begin(&mut plain, s.start, room, n.min(255) as u8);
        let answer = raw::begin_named(&mut lent.table, s.start, room, n.min(255) as u8, &self.name);
        let t = &lent.table;
        names::held(&self.name, &answer, (&unnamed, &plain, &[]), (t, &[]));
        match answer {
            Ok(_) => {
                assert!(t[s.clone()].iter().all(|&x| x == 0), "a build does not begin with zeros");
                assert!(t[..s.start] == before[..s.start] && t[s.end..] == before[s.end..], "an excess was touched");
            }
            Err(_) => assert!(*t == before, "refused arguments changed a buffer"),
        }
        let safe = whole.then(|| safe::Factor::named(&self.name).builder(n.min(255) as u8, room));
        let counted = safe.as_ref().map(|made| made.as_ref().map(|b| (b.element_count(), b.name())).map_err(|no| *no));
        safe::same(answer.as_ref().map(|(h, name)| (h.elements, name.as_bytes())).map_err(|no| *no), counted)?;
        let (handle, name) = answer?;
        self.builder = Some(Built { handle, name, table: lent.table, safe: safe.and_then(Result::ok) });
        self.say("ok");
        Ok(())
    }

    /// `add e g`, `set e g r` and `build`.
    pub(crate) fn building(&mut self, w: &[&str]) -> Result<(), No> {
        let mut b = self.builder.take().ok_or_else(|| "no builder".to_string())?;
        let before = b.table.clone();
        let line = match w[0] {
            "add" => {
                let (e, g) = (number(w, 1)?, number(w, 2)?);
                let grown = raw::add(&mut b.table, b.handle, e, g);
                held_growth(&before, &b, grown.answer);
                b.handle = grown.builder;
                let other = b.safe.as_mut().map(|b| safe::reached(b.add(safe::Element(e), safe::Generator(g))));
                assert!(b.safe.as_ref().is_none_or(|s| s.element_count() == b.handle.elements), "two builders differ");
                safe::same(grown.answer, other).map(|e| e.to_string())
            }
            "set" => {
                let (e, g, to) = (number(w, 1)?, number(w, 2)?, number(w, 3)?);
                let stored = raw::set(&mut b.table, b.handle, e, g, to);
                assert!(stored.is_ok() || b.table == before, "a refused step changed the table");
                let other = b.safe.as_mut().map(|b| b.set(safe::Element(e), safe::Generator(g), safe::Element(to)));
                let new = safe::same(stored, other.map(|stored| stored.map(|how| how == safe::Stored::New)));
                new.map(|new| if new { "new" } else { "known" }.into())
            }
            _ => return self.finish(b),
        };
        self.builder = Some(b);
        self.say(line?);
        Ok(())
    }

    /// `build`: its factor is the current product then.
    fn finish(&mut self, b: Built<safe::Builder>) -> Result<(), No> {
        let h = b.handle;
        let safe = b.safe.filter(|_| self.short == Short::default()).map(safe::Builder::build);
        // A forged handle says no stretch: all of the table is looked at then.
        let fits = h.generators <= 8 && h.room <= 65_535;
        let end = h.start.saturating_add(if fits { raw::table_need(h.generators, h.room) } else { 0 });
        let stretch = if fits && end <= b.table.len() { h.start..end } else { 0..b.table.len() };
        let needed = if fits { raw::work_need(h.generators, h.room) } else { 0 };
        let margin = if self.short.work == 0 { MARGIN } else { 0 };
        let work = vec![FILL; (needed + margin).saturating_sub(std::mem::take(&mut self.short).work)];
        let lent = Lent { table: b.table, stretch, needed: needed.min(work.len()), work };
        let (lent, answer) = self.call(lent, |t, _, w| raw::build(t, h, w));
        let answer = answer.map(|h| (h, b.name));
        let safe = safe.and_then(|built| safe::made_named(&answer, built));
        let b = Built { table: lent.table, handle: answer?.0, name: b.name, safe };
        self.say_factor(&b)?;
        let safe = b.safe.as_ref().map(safe::Product::from);
        self.product = Product { safe, ..Product::of(b.table, vec![b.handle], vec![b.name]) };
        Ok(())
    }
}

/// 14, and 17 in the handle, change nothing; 5, 6, and 17 for the length that is read end the build, and its stretch is zero.
fn held_growth(before: &[u32], b: &Built<safe::Builder>, answer: Answer<u32>) {
    let ended = match answer {
        Ok(_) => return,
        Err(Refusal { number: 5 | 6, .. }) => true,
        Err(Refusal { number: 17, .. }) => b.table != before,
        Err(_) => false,
    };
    if !ended {
        assert!(b.table == before, "a refused element changed the table");
        return;
    }
    let end = b.handle.start + raw::table_need(b.handle.generators, b.handle.room);
    assert!(b.table[b.handle.start..end].iter().all(|&x| x == 0), "a build that ended left something");
    assert!(b.table[..b.handle.start] == before[..b.handle.start] && b.table[end..] == before[end..], "an excess was touched");
}
