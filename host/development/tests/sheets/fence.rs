//! Buffers that lie between fences, so that a write beside them is noticed.

const FENCE: usize = 8;

/// A slice with 8 elements before it and 8 after it that nobody is lent.
pub struct Fenced<T> {
    all: Vec<T>,
    post: T,
}

impl<T: Copy + PartialEq> Fenced<T> {
    pub fn new(content: &[T], post: T) -> Fenced<T> {
        let posts = [post; FENCE];
        let all = [&posts, content, &posts].concat();
        Fenced { all, post }
    }

    pub fn content(&self) -> &[T] {
        &self.all[FENCE..self.all.len() - FENCE]
    }

    pub fn lent(&mut self) -> &mut [T] {
        let end = self.all.len() - FENCE;
        &mut self.all[FENCE..end]
    }

    pub fn fence_stands(&self) -> bool {
        let (before, rest) = self.all.split_at(FENCE);
        let after = &rest[rest.len() - FENCE..];
        before.iter().chain(after).all(|post| *post == self.post)
    }
}
