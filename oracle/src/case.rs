//! A case: what is lent, the images, and a list of calls. It is what is generated, compared and made smaller.
use crate::image::Image;
use crate::machine::{Call, Lent};
use crate::text::{self, Text};
use std::fmt;

#[derive(Clone, Debug)]
pub struct Case {
    pub lent: Lent,
    /// The first is that of the start.
    pub images: Vec<Image>,
    pub calls: Vec<Call>,
}

impl fmt::Display for Case {
    fn fmt(&self, f: &mut fmt::Formatter<'_>) -> fmt::Result {
        let lent = &self.lent;
        writeln!(
            f,
            "lent: base {:x}h, heap {} bytes, {} frames, {} slots, {} spare, filled with {:02x}h",
            lent.base, lent.heap, lent.frames, lent.slots, lent.spare, lent.fill
        )?;
        for (i, image) in self.images.iter().enumerate() {
            writeln!(f, "image {i}, as lines of the runner without `00`:")?;
            let text = text::write(&Text { image: image.clone(), ..Text::default() });
            text.lines().skip(1).try_for_each(|line| writeln!(f, "  {line}"))?;
        }
        writeln!(f, "calls:")?;
        for call in &self.calls {
            match call {
                Call::Intern(bytes) => writeln!(f, "  Intern(b\"{}\")", bytes.escape_ascii())?,
                Call::InternSmall { len, word } => writeln!(f, "  InternSmall({len}, {word:x}h)")?,
                Call::SetRegister { register, value } => writeln!(f, "  SetRegister({register}, {value:x}h)")?,
                other => writeln!(f, "  {other:?}")?,
            }
        }
        Ok(())
    }
}
