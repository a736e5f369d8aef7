//! Tags and the rows that they are bound to.

use crate::tables::ROWS;

pub const VARIANTS: usize = 16;

pub type Tag = [u8; 5];

#[derive(Clone, Copy)]
pub struct Variant {
    pub tag: Tag,
    pub row: usize,
}

/// What making refuses.
pub enum Fault {
    Count,
    EqualTags,
    Row,
}

/// The first `count` of the variants, or the first fault among them.
pub fn bound(count: usize, variants: &[Variant; VARIANTS]) -> Result<Vec<Variant>, Fault> {
    let first = variants.get(..count).ok_or(Fault::Count)?;
    for (i, variant) in first.iter().enumerate() {
        if first[..i].iter().any(|before| before.tag == variant.tag) {
            return Err(Fault::EqualTags);
        }
        if variant.row >= ROWS {
            return Err(Fault::Row);
        }
    }
    Ok(first.to_vec())
}

/// A tag as text, or in hex where it is none.
pub fn shown(tag: Tag) -> String {
    match tag.iter().all(u8::is_ascii_graphic) {
        true => tag.map(char::from).iter().collect(),
        false => format!("{tag:02x?}"),
    }
}
