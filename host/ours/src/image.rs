//! Images: written, read, checked and walked.
use super::*;

const BYTE: u8 = 0xa5;

/// Bytes in hex; `-` or nothing for none.
pub(crate) fn bytes(w: &[&str], i: usize) -> Result<Vec<u8>, No> {
    let text = w.get(i).copied().unwrap_or("-");
    let text = if text == "-" { "" } else { text };
    let pair = |k| text.get(k..k + 2).and_then(|x| u8::from_str_radix(x, 16).ok());
    (0..text.len()).step_by(2).map(pair).collect::<Option<_>>().ok_or_else(|| No::Says(format!("bad argument {i}")))
}

/// The generators and elements that a head says there are.
pub(crate) fn head(image: &[u8]) -> (u8, u32) {
    let at = |i| image.get(i).copied().unwrap_or(0);
    (at(5), u32::from(at(6)) * 256 + u32::from(at(7)))
}

impl Ours {
    /// The image of a factor that is made here, or of the one that is the current product, with a margin that must stay.
    pub(crate) fn image(&mut self, w: &[&str]) -> Result<(), No> {
        let made = if w.is_empty() { None } else { Some(self.build(w)?) };
        let (t, h, safe) = match (&made, self.product.single()) {
            (Some(b), _) => (&b.table, b.handle, b.safe.clone()),
            (None, Some(h)) => (&self.product.table, h, self.product.safe.as_ref().and_then(|p| p.factors().next())),
            _ => return unsupported(),
        };
        let size = 8 + 2 * usize::from(h.generators) * h.elements.min(65_536) as usize;
        let short = std::mem::take(&mut self.short.image);
        let mut out = vec![BYTE; if short == 0 { size + MARGIN } else { size - 1 }];
        let answer = raw::image_write(t, h, &mut out);
        let len = answer.unwrap_or(0) as usize;
        assert!(out[len..].iter().all(|&x| x == BYTE), "an image wrote past its end");
        let safe = safe.filter(|_| short == 0).map(|f| f.to_image());
        safe::same(answer.map(|_| out[..len].to_vec()), safe)?;
        self.say(format!("ok {}", say::hex(&out[..len])));
        Ok(())
    }

    /// The factor that an image stores, printed as `table` does.
    pub(crate) fn unimage(&mut self, image: &[u8]) -> Result<(), No> {
        let (n, count) = head(image);
        // Of a bad head no buffer's length is looked at.
        let right = image.len() == 8 + 2 * usize::from(n) * count as usize;
        let (n, count) = if right { (n, count) } else { (0, 1) };
        let read = |answer: &Answer<Handle>| safe::made(answer, safe::Factor::from_image(image));
        let b = self.build_in(n.into(), count, |t, start, work| raw::image_read(image, t, start, work), read)?;
        self.say_factor(&b)
    }

    /// A check in work that is as long as document 01 says, with a margin that must stay, or a byte shorter: its number, by `number_of`, says what the work holds
    /// then. Whether the work was long enough, too.
    fn checked<T>(&mut self, image: &[u8], call: impl FnOnce(&mut [u8]) -> T, number_of: impl FnOnce(&T) -> u32) -> (T, bool) {
        let (n, count) = head(image);
        let m = usize::from(n);
        let right = n <= 8 && image.len() == 8 + 2 * m * count as usize;
        let need = if right { count as usize * (32 * m * m + 100) } else { 0 };
        let short = std::mem::take(&mut self.short.work);
        let mut work = vec![BYTE; if short == 0 { need + MARGIN } else { need.saturating_sub(1) }];
        let answer = call(&mut work);
        let (used, beyond) = work.split_at(need.min(work.len()));
        assert!(beyond.iter().all(|&x| x == BYTE), "an excess was touched");
        let (zero, untouched) = (used.iter().all(|&x| x == 0), used.iter().all(|&x| x == BYTE));
        match number_of(&answer) {
            1 | 4 => assert!(untouched, "refused arguments changed the work"),
            16 => assert!(zero || untouched, "a refusal left something"),
            _ => assert!(zero, "a check left something"),
        }
        (answer, short == 0)
    }

    /// The check's number.
    pub(crate) fn check_image(&mut self, image: &[u8]) {
        let (number, whole) = self.checked(image, |work| raw::image_check(image, work), |&number| number);
        if whole {
            safe::held_check(image, number);
        }
        self.say(number);
    }

    /// `imgverdict HEX`: the check's verdict, with its places.
    pub(crate) fn image_verdict(&mut self, image: &[u8]) -> Result<(), No> {
        let call = |work: &mut [u8]| raw::image_verdict(image, work);
        let (answer, whole) = self.checked(image, call, |answer| answer.err().map_or(0, |no| no.number));
        if whole {
            safe::held_verdict(image, answer);
        }
        answer?;
        self.say("ok");
        Ok(())
    }

    /// `imgneed HEX`: the bytes of work that a check needs, as the head tells them.
    pub(crate) fn image_need(&mut self, image: &[u8]) -> Result<(), No> {
        let need = raw::image_need(image)?;
        self.say(need);
        Ok(())
    }

    /// `imgwalk HEX START G..`: the walk's number.
    pub(crate) fn walk_image(&mut self, w: &[&str]) -> Result<(), No> {
        let image = bytes(w, 1)?;
        let start = number(w, 2)?;
        let word = (3..w.len()).map(|i| number(w, i)).collect::<Result<Vec<u8>, No>>()?;
        let walked = raw::image_walk(&image, start, &word);
        safe::held_walk(&image, start, &word, walked);
        self.say(walked);
        Ok(())
    }
}
