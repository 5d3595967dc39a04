//! Names: a build with one makes what the same build makes without, and the joined name of a product is the one answer that has them.
use super::*;
use questions::written;
use safe::same;

/// What was made with a name, beside the answer and the buffers of the same call without one: the same, with the name kept as it is to be; or, where the name is too
/// long, the refusals 1 to 4 of the other, and else 18 (that the buffers are as they were then is seen to wherever they are lent).
pub(crate) fn held(
    name: &[u8],
    answer: &Answer<(Handle, Name)>,
    (unnamed, table, work): (&Answer<Handle>, &[u32], &[u32]),
    left: (&[u32], &[u32]),
) {
    let handle = answer.map(|(handle, _)| handle);
    if name.len() <= 32 {
        assert!(handle == *unnamed && left == (table, work), "a name changes a build");
        let mut bytes = [0; 32];
        bytes[..name.len()].copy_from_slice(name);
        let kept = Name { bytes, length: name.len() as u8 };
        assert!(answer.is_err() || answer.is_ok_and(|(_, name)| name == kept), "a name is not kept as it is");
        return;
    }
    match unnamed {
        Err(Refusal { number: 1..=4, .. }) => assert_eq!(handle, *unnamed, "a name changes a refusal"),
        _ => assert!(handle.is_err_and(|no| (no.number, no.places) == (18, [0; 3])), "a name is too long, and is taken"),
    }
}

impl Ours {
    /// A build with the current name after a table buffer, which comes back as it was where the build is refused; and in other buffers the same build without.
    pub(crate) fn build_named(
        &mut self,
        base: Vec<u32>,
        n: usize,
        room: u32,
        plain: impl FnOnce(&mut [u32], usize, &mut [u32]) -> Answer<Handle>,
        named: impl FnOnce(&mut [u32], usize, &mut [u32], &[u8]) -> Answer<(Handle, Name)>,
    ) -> (Vec<u32>, Answer<(Handle, Name)>) {
        let len = base.len();
        let lent = self.lend(base, n, room);
        let (other, unnamed) = self.call(lent.clone(), plain);
        let mut kept = Name::default();
        let (mut lent, answer) = self.call(lent, |table, start, work| {
            let (handle, name) = named(table, start, work, &self.name)?;
            kept = name;
            Ok(handle)
        });
        let answer = answer.map(|handle| (handle, kept));
        held(&self.name, &answer, (&unnamed, &other.table, &other.work), (&lent.table, &lent.work));
        if answer.is_err() {
            lent.table.truncate(len);
        }
        (lent.table, answer)
    }

    /// `forgename K LEN`.
    pub(crate) fn forge_name(&mut self, k: usize, length: u8) {
        if let Some(b) = &mut self.builder {
            (b.name.length, b.safe) = (length, None);
        } else if let Some(name) = self.product.names.get_mut(k) {
            (name.length, self.product.safe) = (length, None);
        }
    }

    /// `joined LEN`: into a buffer of so many bytes, by the call that hands back the filled part of its own, and by the safe types.
    pub(crate) fn joined(&mut self, size: usize) -> Result<(), No> {
        let short = std::mem::take(&mut self.short.names);
        let p = &self.product;
        let names = &p.names[..p.names.len().saturating_sub(short)];
        let into = |size: usize| written(size, |out| raw::joined(&p.table, &p.handles, names, out));
        let longest = into(raw::LONGEST_JOINED);
        let part = raw::joined_part(&p.table, &p.handles, names);
        assert_eq!(part, *longest.as_deref().unwrap_or_default(), "the part that is handed back is not the joined name");
        let safe = p.safe.as_ref().filter(|_| short == 0);
        let _ = same(longest, safe.map(|x| Ok(x.name())));
        for (factor, name) in safe.iter().flat_map(|x| x.factors()).zip(names) {
            assert_eq!(factor.name(), name.as_bytes(), "a factor of a product has another name");
        }
        let other = safe.map(|x| written(size, |out| x.write_name(out).map(|length| length as u32)));
        let name = same(into(size), other)?;
        self.say(format!("ok {}", say::hex(&name)));
        Ok(())
    }

    /// `flatname`, the name of the product as one factor, and `subname`, of the subgroup's factor, which the safe types have.
    pub(crate) fn name_of(&mut self, which: &str) -> Result<(), No> {
        let factor = match which {
            "flatname" => self.product.safe.as_ref().map(|p| p.flatten_with_room(self.room)),
            _ => self.sub.as_ref().and_then(|s| s.safe.as_ref()).map(|s| Ok(s.factor().clone())),
        };
        let Some(factor) = factor else { return unsupported() };
        self.say(format!("ok {}", say::hex(factor?.name())));
        Ok(())
    }
}
