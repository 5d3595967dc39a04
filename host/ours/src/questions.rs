//! Questions about the current product. A product of one factor must answer as the factor itself does, refusals included, and both as the
//! safe types do.
use super::*;
use safe::{Element, Generator, both_safe, reached, same, spelled};

/// What stands in a byte buffer before it is lent.
const BYTE: u8 = 0xa5;

/// The recorded word in a factor, in a buffer that is long enough for any, whose rest must stay.
pub(crate) fn word(t: &[u32], h: Handle, e: u32) -> Answer<Vec<u8>> {
    written(4100, |out| raw::word(t, h, e, out))
}

/// What a call writes into a buffer of so many bytes, whose rest must stay, and what is behind it.
pub(crate) fn written(size: usize, call: impl FnOnce(&mut [u8]) -> Answer<u32>) -> Answer<Vec<u8>> {
    let mut out = vec![BYTE; size + MARGIN];
    let answer = call(&mut out[..size]);
    let len = answer.unwrap_or(0) as usize;
    assert!(len <= size && out[len..].iter().all(|&x| x == BYTE), "a word or a name wrote past its end");
    answer?;
    out.truncate(len);
    Ok(out)
}

/// The answer of the product, and of its one factor if it has one.
pub(crate) fn both<A: PartialEq + std::fmt::Debug>(whole: A, single: Option<A>) -> A {
    if let Some(single) = single {
        assert_eq!(whole, single, "a product of one factor differs from the factor");
    }
    whole
}

impl Product {
    fn word(&self, e: u32) -> Answer<Vec<u8>> {
        written(8 * 4096 + 4, |out| raw::product_word(&self.table, &self.handles, e, out))
    }

    /// The digits, in a list with so many places.
    fn split(&self, e: u32, places: usize) -> Answer<Vec<u32>> {
        let mut digits = vec![FILL; places];
        let answer = raw::product_split(&self.table, &self.handles, e, &mut digits);
        let len = answer.unwrap_or(0) as usize;
        assert!(digits[len..].iter().all(|&x| x == FILL), "digits were written past their end");
        answer.map(|_| digits[..len].to_vec())
    }

    fn generators(&self) -> Answer<Vec<u32>> {
        let (t, p) = (&self.table, &self.handles);
        (0..raw::product_generators(t, p)?)
            .map(|g| both(raw::product_generator(t, p, g as u8), self.single().map(|h| raw::generator(t, h, g as u8))))
            .collect()
    }

    /// A word into one byte less than it needs: 4, and nothing is written.
    fn short_word(&self, e: u32) -> Answer<u32> {
        let (t, p) = (&self.table, &self.handles);
        let size = (raw::product_length(t, p, e)? as usize).saturating_sub(1);
        let whole = written(size, |out| raw::product_word(t, p, e, out)).map(|w| w.len() as u32);
        both(whole, self.single().map(|h| written(size, |out| raw::word(t, h, e, out)).map(|w| w.len() as u32)))
    }
}

/// A question by the call on a product, by the call on a factor where there is one alone, and by the safe types.
macro_rules! every_way {
    ($p:expr, $product:ident, $factor:ident, ($($argument:expr),*), $x:ident => $asked:expr) => {{
        let (t, hs) = (&$p.table, &$p.handles);
        let answer = both(raw::$product(t, hs $(, $argument)*), $p.single().map(|h| raw::$factor(t, h $(, $argument)*)));
        both_safe!($p, answer, $x => $asked)
    }};
}

impl Ours {
    pub(crate) fn question(&mut self, w: &[&str]) -> Result<(), No> {
        let p = &self.product;
        let line = match w[0] {
            "gens" => {
                let all = p.generators();
                say::listed(&both_safe!(p, all, x => x.generators().map(|g| reached(x.generator(g))).collect())?)
            }
            "word" => say::listed(&p.word_of(number(w, 1)?)?),
            "part" => match p.single() {
                Some(h) => {
                    let (e, part) = (number(w, 1)?, raw::part(&p.table, h, number(w, 1)?));
                    assert_eq!(part, word(&p.table, h, e).unwrap_or_default(), "the part that is handed back is not the word");
                    say::listed(&part)
                }
                None => return unsupported(),
            },
            "split" => {
                // More places than any product's digits need.
                let e = number(w, 1)?;
                let other = p.safe.as_ref().map(|x| x.split(Element(e)).map(|digits| digits.iter().map(|d| d.0).collect()));
                say::listed(&same(p.split(e, 12), other)?)
            }
            "shortsplit" => say::listed(&p.split(number(w, 1)?, usize::from(p.handles.count).saturating_sub(1))?),
            "checked" => match p.single() {
                Some(h) => {
                    let orders = numbers(&w[1..])?;
                    let other = p.safe.as_ref().and_then(|x| x.factors().next()).map(|f| f.check(&orders));
                    same(raw::check(&p.table, h, &orders), other).map(|()| "ok".into())?
                }
                None => return unsupported(),
            },
            "composes" | "inverses" | "powers" => say::listed(&p.over_lists(w)?),
            "shortword" | "join" | "project" | "inject" => p.product_asked(w)?.to_string(),
            _ => p.number_asked(w)?.to_string(),
        };
        self.say(line);
        Ok(())
    }

    /// The current product as one factor, built beside it with the current room.
    pub(crate) fn flatten(&mut self) -> Result<(), No> {
        let p = std::mem::take(&mut self.product);
        let n = raw::product_generators(&p.table, &p.handles).unwrap_or(0);
        let room = self.room;
        let call = |t: &mut [u32], start, work: &mut [u32]| raw::product_flatten(&p.table, &p.handles, n as u8, t, start, work, room);
        let b = self.build_in(n as usize, room, call, |answer| {
            let product = p.safe.as_ref()?;
            // With room for all of it, and no more than there can be, it need not be told.
            if (product.element_count()..=65_535).contains(&room) {
                safe::made(answer, product.flatten());
            }
            safe::made(answer, product.flatten_with_room(room))
        });
        self.product = p;
        self.say_factor(&b?)
    }
}

impl Product {
    fn word_of(&self, e: u32) -> Answer<Vec<u8>> {
        let written = both(self.word(e), self.single().map(|h| word(&self.table, h, e)));
        both_safe!(self, written, x => spelled(x.word(Element(e))))
    }

    /// The questions to a product and to a factor whose answer is a number.
    fn number_asked(&self, w: &[&str]) -> Result<u32, No> {
        Ok(match w[0] {
            "count" => every_way!(self, product_count, count, (), x => Ok(x.element_count())),
            "step" => {
                let (e, g) = (number(w, 1)?, number(w, 2)?);
                every_way!(self, product_step, step, (e, g), x => reached(x.step(Element(e), Generator(g))))
            }
            "walk" => {
                let from = number(w, 1)?;
                let turns: Vec<u8> = (2..w.len()).map(|i| number(w, i)).collect::<Result<_, No>>()?;
                let told: Vec<Generator> = turns.iter().copied().map(Generator).collect();
                every_way!(self, product_walk, walk, (from, &turns), x => reached(x.walk(Element(from), &told)))
            }
            "compose" => {
                let (a, b) = (number(w, 1)?, number(w, 2)?);
                every_way!(self, product_compose, compose, (a, b), x => reached(x.compose(Element(a), Element(b))))
            }
            "conjugate" => {
                let (a, b) = (number(w, 1)?, number(w, 2)?);
                every_way!(self, product_conjugate, conjugate, (a, b), x => reached(x.conjugate(Element(a), Element(b))))
            }
            "inverse" => {
                let a = number(w, 1)?;
                every_way!(self, product_inverse, inverse, (a), x => reached(x.inverse(Element(a))))
            }
            "length" => {
                let e = number(w, 1)?;
                every_way!(self, product_length, length, (e), x => x.word_length(Element(e)))
            }
            "powi" => {
                let (a, i) = (number(w, 1)?, number(w, 2)?);
                every_way!(self, product_powi, powi, (a, i), x => reached(x.powi(Element(a), i)))
            }
            "period" => {
                let a = number(w, 1)?;
                every_way!(self, product_period, period, (a), x => x.period(Element(a)))
            }
            _ => return unsupported(),
        }?)
    }

    /// Those to a product alone.
    fn product_asked(&self, w: &[&str]) -> Result<u32, No> {
        let (t, hs, safe) = (&self.table, &self.handles, self.safe.as_ref());
        Ok(match w[0] {
            "shortword" => self.short_word(number(w, 1)?),
            "join" => {
                let digits = numbers(&w[1..])?;
                let listed: Vec<Element> = digits.iter().copied().map(Element).collect();
                same(raw::product_join(t, hs, &digits), safe.map(|x| reached(x.join(&listed))))
            }
            "project" => {
                let (f, e) = (number(w, 1)?, number(w, 2)?);
                same(raw::product_project(t, hs, f, e), safe.map(|x| reached(x.project(f, Element(e)))))
            }
            _ => {
                let (f, e) = (number(w, 1)?, number(w, 2)?);
                same(raw::product_inject(t, hs, f, e), safe.map(|x| reached(x.inject(f, Element(e)))))
            }
        }?)
    }
}
