//! Stands for vect.rs, which is not in the text. It is ours, and no evidence about that file. It has the two names that
//! vector/mod.rs needs; no dense vector is ever made.
#[derive(Debug, Clone)]
pub struct VectOwned<S>(Vec<S>);

#[derive(Debug, Clone, Copy, PartialEq, PartialOrd)]
pub struct VectBorrowed<'a, S>(&'a [S]);

impl<S> VectOwned<S> {
    pub fn as_borrowed(&self) -> VectBorrowed<'_, S> {
        VectBorrowed(&self.0)
    }
}
