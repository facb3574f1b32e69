//! What vortex-mask uses of itertools, written anew: pairs of neighbours.

pub trait Itertools: Iterator + Sized {
    /// Each item with the one after it.
    fn tuple_windows(mut self) -> Neighbours<Self>
    where
        Self::Item: Clone,
    {
        let before = self.next();
        Neighbours { items: self, before }
    }
}

impl<I: Iterator> Itertools for I {}

pub struct Neighbours<I: Iterator> {
    items: I,
    before: Option<I::Item>,
}

impl<I: Iterator> Iterator for Neighbours<I>
where
    I::Item: Clone,
{
    type Item = (I::Item, I::Item);

    fn next(&mut self) -> Option<Self::Item> {
        let after = self.items.next()?;
        let before = self.before.replace(after.clone())?;
        Some((before, after))
    }
}
