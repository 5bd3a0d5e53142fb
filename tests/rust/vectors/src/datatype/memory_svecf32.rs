//! Stands for src/datatype/memory_svecf32.rs, which keeps vectors in PostgreSQL's memory. It is ours, and no evidence
//! about that file: a borrowed vector comes in, an owned one goes out.
use base::vector::*;

pub struct SVecf32Input<'a>(pub SVectBorrowed<'a, f32>);

impl<'a> SVecf32Input<'a> {
    pub fn dims(&self) -> u32 {
        self.0.dims()
    }
    pub fn len(&self) -> u32 {
        self.0.len()
    }
    pub fn as_borrowed(&self) -> SVectBorrowed<'a, f32> {
        self.0
    }
}

pub struct SVecf32Output(pub SVectOwned<f32>);

impl SVecf32Output {
    pub fn new(v: SVectBorrowed<'_, f32>) -> Self {
        SVecf32Output(v.own())
    }
}
