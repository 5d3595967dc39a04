//! What is printed of a factor, and digests.
use super::*;

/// FNV-1a over numbers in place of bytes.
struct Digest(u64);

impl Digest {
    fn new() -> Self {
        Digest(0xcbf29ce484222325)
    }
    fn add(&mut self, x: u64) {
        self.0 = (self.0 ^ x).wrapping_mul(0x100000001b3);
    }
}

pub(crate) fn digest(list: &[u32]) -> u64 {
    let mut d = Digest::new();
    list.iter().for_each(|&x| d.add(x.into()));
    d.0
}

/// A list behind `ok`.
pub(crate) fn listed<T: std::fmt::Display>(list: &[T]) -> String {
    format!("ok{}", list.iter().map(|x| format!(" {x}")).collect::<String>())
}

/// Bytes in hex; `-` for none.
pub(crate) fn hex(bytes: &[u8]) -> String {
    if bytes.is_empty() { "-".into() } else { bytes.iter().map(|x| format!("{x:02x}")).collect() }
}

impl Ours {
    /// A list that grows with the group: its digest when quiet.
    pub(crate) fn say_long(&mut self, head: &str, list: &[u32]) {
        if self.quiet {
            self.say(format!("{head} fnv {:016x}", digest(list)));
        } else {
            self.say(format!("{head}{}", list.iter().map(|x| format!(" {x}")).collect::<String>()));
        }
    }

    pub(crate) fn say_factor(&mut self, b: &Built<safe::Factor>) -> Result<(), No> {
        let (t, h) = (&b.table, b.handle);
        let (mut digest, mut longest) = (Digest::new(), 0);
        let mut lines = vec![];
        for e in 0..h.elements {
            let (inverse, word) = (raw::inverse(t, h, e)?, questions::word(t, h, e)?);
            let steps = (0..h.generators).map(|g| raw::step(t, h, e, g)).collect::<Answer<Vec<_>>>()?;
            if let Some(f) = &b.safe {
                safe::held_element(f, e, inverse, &word, &steps);
            }
            longest = longest.max(word.len());
            if self.quiet {
                digest.add(inverse.into());
                digest.add(word.len() as u64);
                word.iter().for_each(|&g| digest.add(g.into()));
                steps.iter().for_each(|&x| digest.add(x.into()));
                continue;
            }
            let letters: Vec<String> = word.iter().map(u8::to_string).collect();
            let letters = if word.is_empty() { "-".into() } else { letters.join(",") };
            let steps: String = steps.iter().map(|x| format!(" {x}")).collect();
            lines.push(format!("{e} {inverse} {letters}{steps}"));
        }
        if self.quiet {
            self.say(format!("ok {} {} maxword {longest} fnv {:016x}", h.generators, h.elements, digest.0));
            return Ok(());
        }
        self.say(format!("ok {} {}", h.generators, h.elements));
        lines.iter().for_each(|l| self.say(l));
        self.say("end");
        Ok(())
    }
}
