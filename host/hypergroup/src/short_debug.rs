//! What `{:?}` prints of the types that own a table or bytes: their counts, a name where there is one, and never the table.
use crate::{Builder, Factor, Image, OwnedImage, Product, Subgroup};
use core::fmt::{Debug, DebugStruct, Formatter, Result};

/// A name that is not empty, as a program would write its bytes.
fn named(all: &mut DebugStruct<'_, '_>, name: &[u8]) {
    if !name.is_empty() {
        all.field("name", &format_args!("\"{}\"", name.escape_ascii()));
    }
}

impl Debug for Factor {
    fn fmt(&self, f: &mut Formatter<'_>) -> Result {
        let mut all = f.debug_struct("Factor");
        named(&mut all, self.name());
        all.field("generators", &self.generator_count()).field("elements", &self.element_count()).finish()
    }
}

impl Debug for Builder {
    fn fmt(&self, f: &mut Formatter<'_>) -> Result {
        let mut all = f.debug_struct("Builder");
        named(&mut all, self.name());
        all.field("generators", &self.generator_count()).field("elements", &self.element_count()).finish()
    }
}

impl Debug for Product {
    fn fmt(&self, f: &mut Formatter<'_>) -> Result {
        let mut all = f.debug_struct("Product");
        if self.factors().any(|f| !f.name().is_empty()) {
            named(&mut all, &self.name());
        }
        all.field("factors", &self.factor_count());
        all.field("generators", &self.generator_count()).field("elements", &self.element_count()).finish()
    }
}

impl Debug for Subgroup {
    fn fmt(&self, f: &mut Formatter<'_>) -> Result {
        let mut all = f.debug_struct("Subgroup");
        all.field("generators", &self.generator_count()).field("elements", &self.element_count());
        all.field("overgroup_elements", &self.overgroup_count()).finish()
    }
}

impl Debug for Image<'_> {
    fn fmt(&self, f: &mut Formatter<'_>) -> Result {
        f.debug_struct("Image").field("generators", &self.generator_count()).field("elements", &self.element_count()).finish()
    }
}

impl Debug for OwnedImage {
    fn fmt(&self, f: &mut Formatter<'_>) -> Result {
        f.debug_struct("OwnedImage").field("generators", &self.generator_count()).field("elements", &self.element_count()).finish()
    }
}
