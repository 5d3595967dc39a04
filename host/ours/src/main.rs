//! The proved library, answering the oracle's commands in the oracle's words, and `refused NUMBER A B C` for a refusal.
//!
//! Beyond the oracle's commands (oracle/README.md):
//!
//! - `short table`, `short work`, `short rows` lend the next build one number less; `short work` also the next `imgcheck` one byte, and
//!   `short image` the next `image`, and `short inward` and `short outward` one map of the next `sub` or `subpred`.
//! - `alter I V` stores V at the I-th number of the table buffer of the current builder, or else of the current product. `forge START
//!   ROOM N COUNT` puts another handle in the place of the builder's, or of the product's first factor; with five numbers the first
//!   says which factor. `forgecount K` says how many factors the product has. `forgename K LEN` puts another length beside the name of
//!   the builder, whatever K is, or of the product's K-th factor; `short names` lends the next `joined` one name less.
//! - `altermap I V` and `altersub I V` do as `alter` does, in both maps and in the table of the current subgroup.
//! - `checked ORDERS..` checks the one factor of the current product, as it stands, against pair orders.
//! - `bench turns K` does what `bench walk K` does by a call for each turn.
//! - `bench unimage HEX` and `bench imgcheck HEX`, beyond what the oracle measures; `bench product compose K` and so on ask the calls on
//!   products where the product has one factor too, and without the word the calls on that factor are asked.
//! - `builder n` begins a build with the current room, `add e g` prints the new element, `set e g r` prints `new` or `known`, `build`
//!   prints as `table` does and makes the factor the current product.
//! - `walk e g..` walks the turns one after another, in one call.
//! - `composes A,A,.. B,B,..`, `inverses A,A,..` and `powers A,A,.. I,I,..` ask over lists, `-` being an empty one, into an output that is as long as the
//!   first, or by `+1` or `-1` at the end of the line one longer or shorter. They print `ok` and the numbers, `refused 4 0 0 0` for the lists, or
//!   `at PLACE refused NUMBER A B C`. `bench composes K TURNS`, `bench inverses K TURNS` and `bench powers K TURNS` ask what `bench compose TURNS` and so
//!   on ask in lists of K places, or by single calls where K is 0; the arguments are elements before the clock starts.
//! - `count`, `length e`; `shortword e` writes a word into one byte less than it has, `shortsplit e` the digits into one place less;
//!   `part e` is the word by the call that hands back the filled part of its buffer, nothing where it is refused.
//! - `safe` prints how many answers of the safe types were compared so far.
//! - `image enum ..`, `image table ..` or `image` alone, for the one factor of the current product, print `ok` and the bytes in hex;
//!   `unimage HEX` prints as `table` does; `imgcheck HEX` and `imgwalk HEX START G..` print the number that comes back, `imgverdict HEX`
//!   prints `ok` or the refusal with its places, and `imgneed HEX` the bytes of work that a check needs. `-` is no byte.
//!
//! A name is a setting, as the room is, and stays through `clear`. One that is too long is refused where a factor is to be made.
//!
//! What this program cannot answer yet it says with `unsupported`. Whatever a call leaves in the buffers is held to document 01 after
//! every build, a build with a name to the same without (src/names.rs), a product of one factor to the factor itself, both ways to make a
//! product to each other, and the calls on buffers to the crate's safe types, which are asked the same wherever they can be
//! (src/safe.rs); a fault ends the program.
mod bench;
mod build;
mod image;
mod lists;
mod names;
mod questions;
mod safe;
mod say;
mod subgroups;

use hypergroup::raw::{self, Answer, Handle, Handles, Name};
use hypergroup::{ListRefusal, Refusal};
use std::io::{BufRead, BufWriter, Write};

/// What stands in a buffer before it is lent, and must stand in its excess afterwards.
const FILL: u32 = 0xa5a5_a5a5;
const MARGIN: usize = 7;

/// A table buffer with a factor in it, or a builder, and its name; and the same made by a safe type.
struct Built<S> {
    table: Vec<u32>,
    handle: Handle,
    name: Name,
    safe: Option<S>,
}

/// A table buffer with the factors of a product in it.
struct Product {
    table: Vec<u32>,
    handles: Handles,
    /// The same, for the calls on one factor.
    factors: Vec<Handle>,
    names: Vec<Name>,
    /// The same product by the safe types; none where this one is altered.
    safe: Option<safe::Product>,
}

impl Default for Product {
    fn default() -> Self {
        Product { safe: Some(safe::Product::default()), ..Product::of(vec![], vec![], vec![]) }
    }
}

impl Product {
    fn of(table: Vec<u32>, factors: Vec<Handle>, names: Vec<Name>) -> Self {
        let mut handles = Handles::default();
        factors.iter().for_each(|&h| handles.push(h));
        Product { table, handles, factors, names, safe: None }
    }

    /// The one factor, where there is one.
    fn single(&self) -> Option<Handle> {
        match self.factors[..] {
            [h] if self.handles.count == 1 => Some(h),
            _ => None,
        }
    }
}

/// Why a command has no answer: a refusal, or words of this program's own.
enum No {
    Refused(Refusal),
    Says(String),
}
impl From<Refusal> for No {
    fn from(r: Refusal) -> Self {
        No::Refused(r)
    }
}
impl From<ListRefusal> for No {
    fn from(no: ListRefusal) -> Self {
        match no.place {
            Some(place) => No::Says(format!("at {place} {}", refused(no.refusal))),
            None => No::Refused(no.refusal),
        }
    }
}
impl From<String> for No {
    fn from(s: String) -> Self {
        No::Says(s)
    }
}
fn refused(Refusal { number, places: [a, b, c], .. }: Refusal) -> String {
    format!("refused {number} {a} {b} {c}")
}
fn unsupported<T>() -> Result<T, No> {
    Err(No::Says("unsupported".into()))
}

fn number<T: std::str::FromStr>(w: &[&str], i: usize) -> Result<T, No> {
    w.get(i).and_then(|x| x.parse().ok()).ok_or_else(|| No::Says(format!("bad argument {i}")))
}
fn numbers(w: &[&str]) -> Result<Vec<u32>, No> {
    (0..w.len()).map(|i| number(w, i)).collect()
}

/// What the next call is lent one less of.
#[derive(Clone, Copy, Default, PartialEq)]
struct Short {
    table: usize,
    work: usize,
    rows: usize,
    image: usize,
    inward: usize,
    outward: usize,
    names: usize,
}

struct Ours {
    out: BufWriter<std::io::Stdout>,
    room: u32,
    quiet: bool,
    short: Short,
    /// The name of every factor that is made.
    name: Vec<u8>,
    /// The factors that were made, in one table buffer, and their names.
    factors: Vec<Handle>,
    names: Vec<Name>,
    space: Vec<u32>,
    /// The same by the safe type.
    safe: Vec<Option<safe::Factor>>,
    builder: Option<Built<safe::Builder>>,
    product: Product,
    sub: Option<subgroups::Sub>,
}

impl Ours {
    fn say(&mut self, line: impl std::fmt::Display) {
        writeln!(self.out, "{line}").unwrap();
    }

    fn alter(&mut self, i: usize, v: u32) {
        let table = match &mut self.builder {
            Some(b) => {
                b.safe = None;
                &mut b.table
            }
            None => {
                self.product.safe = None;
                &mut self.product.table
            }
        };
        if !table.is_empty() {
            let at = i % table.len();
            table[at] = v;
        }
    }

    /// `START ROOM N COUNT`, or these after the factor's place.
    fn forge(&mut self, w: &[&str]) -> Result<(), No> {
        let (k, w): (usize, _) = if w.len() == 5 { (number(w, 0)?, &w[1..]) } else { (0, w) };
        let h = Handle::new(number(w, 0)?, number(w, 1)?, number(w, 2)?, number(w, 3)?);
        if let Some(b) = &mut self.builder {
            (b.handle, b.safe) = (h, None);
        } else if let Some(place) = self.product.factors.get_mut(k) {
            *place = h;
            let Product { table, handles, factors, names, .. } = std::mem::take(&mut self.product);
            self.product = Product::of(table, factors, names);
            self.product.handles.count = handles.count;
        }
        Ok(())
    }

    /// The product of the factors, whose number of generators and elements is printed. As in the oracle a refused one leaves the last.
    fn prod(&mut self) -> Result<(), No> {
        let mut p = Product::of(self.space.clone(), self.factors.clone(), self.names.clone());
        let counted = raw::product_count(&p.table, &p.handles);
        let (first, rest) = p.factors.split_at(p.factors.len() / 2);
        let half = |part: &[Handle]| part.iter().copied().collect::<Handles>();
        let joined = raw::product(&p.table, &half(first), &half(rest));
        assert_eq!(joined, counted.map(|_| p.handles.count.into()), "two ways to a product differ");
        let counts = raw::product_generators(&p.table, &p.handles).and_then(|n| Ok((n, counted?)));
        p.safe = safe::product(counts, &self.safe);
        let line = format!("ok {} {}", counts?.0, counts?.1);
        self.builder = None;
        self.product = p;
        self.say(line);
        Ok(())
    }

    fn answer(&mut self, w: &[&str]) -> Result<(), No> {
        match w[0] {
            "room" => self.room = number(w, 1)?,
            "quiet" => self.quiet = number::<u8>(w, 1)? != 0,
            "short" => match w.get(1) {
                Some(&"table") => self.short.table = 1,
                Some(&"work") => self.short.work = 1,
                Some(&"image") => self.short.image = 1,
                Some(&"inward") => self.short.inward = 1,
                Some(&"outward") => self.short.outward = 1,
                Some(&"names") => self.short.names = 1,
                _ => self.short.rows = 1,
            },
            "name" => self.name = image::bytes(w, 1)?,
            "joined" => self.joined(number(w, 1)?)?,
            "flatname" | "subname" => self.name_of(w[0])?,
            "alter" => self.alter(number(w, 1)?, number(w, 2)?),
            "forge" => self.forge(&w[1..])?,
            "forgecount" => (self.product.handles.count, self.product.safe) = (number(w, 1)?, None),
            "forgename" => self.forge_name(number(w, 1)?, number(w, 2)?),
            "bench" => self.bench(&w[1..])?,
            "safe" => self.say(safe::compared()),
            "clear" => {
                (self.factors, self.names, self.space, self.safe) = (vec![], vec![], vec![], vec![]);
                (self.builder, self.product, self.sub) = (None, Product::default(), None);
            }
            "enum" | "table" => {
                let b = self.build(w)?;
                self.say_factor(&b)?;
            }
            "against" => {
                let bar = w.iter().position(|x| *x == "|").ok_or_else(|| "missing argument".to_string())?;
                let b = self.build(&w[1..bar])?;
                let orders = numbers(&w[bar + 1..])?;
                safe::same(raw::check(&b.table, b.handle, &orders), b.safe.map(|f| f.check(&orders)))?;
                self.say("ok");
            }
            "factor" => self.add_factor(&w[1..])?,
            "prod" => self.prod()?,
            "builder" => self.begin(number(w, 1)?)?,
            "add" | "set" | "build" => self.building(w)?,
            "flatten" => self.flatten()?,
            "sub" => self.sub(&w[1..])?,
            "subpred" => self.sub_predicate(&w[1..])?,
            "subleft" | "subright" => self.sub_beside(w)?,
            "s2o" | "o2s" | "subgens" => self.sub_question(w)?,
            "altermap" | "altersub" => self.alter_sub(w[0], number(w, 1)?, number(w, 2)?),
            "image" => self.image(&w[1..])?,
            "unimage" => self.unimage(&image::bytes(w, 1)?)?,
            "imgcheck" => self.check_image(&image::bytes(w, 1)?),
            "imgverdict" => self.image_verdict(&image::bytes(w, 1)?)?,
            "imgneed" => self.image_need(&image::bytes(w, 1)?)?,
            "imgwalk" => self.walk_image(w)?,
            _ => self.question(w)?,
        }
        Ok(())
    }
}

fn main() {
    let echo = std::env::args().any(|a| a == "--echo");
    let mut ours = Ours {
        out: BufWriter::new(std::io::stdout()),
        room: 65_535,
        quiet: false,
        short: Short::default(),
        name: vec![],
        factors: vec![],
        names: vec![],
        space: vec![],
        safe: vec![],
        builder: None,
        product: Product::default(),
        sub: None,
    };
    for line in std::io::stdin().lock().lines() {
        let line = line.unwrap();
        let words: Vec<&str> = line.split_whitespace().collect();
        if words.is_empty() || words[0].starts_with('#') {
            continue;
        }
        if echo {
            ours.say(format!("> {line}"));
        }
        match ours.answer(&words) {
            Ok(()) => {}
            Err(No::Refused(no)) => ours.say(refused(no)),
            Err(No::Says(s)) => ours.say(s),
        }
        ours.out.flush().unwrap();
    }
}
