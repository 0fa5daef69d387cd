//! Stands in for the crate heapless: a text and a list of at most N, on the
//! heap, that refuse what doesn't fit.
use core::ops::Deref;

#[derive(Clone, Debug, Default, PartialEq, Eq)]
pub struct String<const N: usize>(std::string::String);

impl<const N: usize> TryFrom<&str> for String<N> {
    type Error = ();
    fn try_from(text: &str) -> Result<Self, ()> {
        if text.len() > N { Err(()) } else { Ok(Self(text.into())) }
    }
}

impl<const N: usize> Deref for String<N> {
    type Target = str;
    fn deref(&self) -> &str {
        &self.0
    }
}

#[derive(Clone, Debug, PartialEq, Eq)]
pub struct Vec<T, const N: usize>(std::vec::Vec<T>);

impl<T, const N: usize> Default for Vec<T, N> {
    fn default() -> Self {
        Self(std::vec::Vec::new())
    }
}

impl<T, const N: usize> Vec<T, N> {
    pub fn push(&mut self, value: T) -> Result<(), T> {
        if self.0.len() == N {
            return Err(value);
        }
        self.0.push(value);
        Ok(())
    }
}

impl<T, const N: usize> Deref for Vec<T, N> {
    type Target = [T];
    fn deref(&self) -> &[T] {
        &self.0
    }
}

impl<'a, T, const N: usize> IntoIterator for &'a Vec<T, N> {
    type Item = &'a T;
    type IntoIter = core::slice::Iter<'a, T>;
    fn into_iter(self) -> Self::IntoIter {
        self.0.iter()
    }
}
