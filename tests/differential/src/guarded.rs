//! Memory to lend, with guard elements on both sides.

use mlhe_reference::random::Random;

/// An element with any content.
pub trait Element: Copy + PartialEq + std::fmt::Debug {
    fn random(random: &mut Random) -> Self;
}

impl Element for u8 {
    fn random(random: &mut Random) -> Self {
        random.byte()
    }
}

impl Element for u16 {
    fn random(random: &mut Random) -> Self {
        random.bits() as u16
    }
}

impl Element for u32 {
    fn random(random: &mut Random) -> Self {
        // Small numbers too: those could be pixels.
        (random.bits() >> random.between(32, 63)) as u32
    }
}

impl Element for usize {
    fn random(random: &mut Random) -> Self {
        random.bits() as usize
    }
}

/// Memory that is lent, between guards of random length and content.
#[derive(Clone)]
pub struct Guarded<T> {
    memory: Vec<T>,
    start: usize,
    length: usize,
    before: Vec<T>,
}

impl<T: Element> Guarded<T> {
    /// Lends this content.
    pub fn holding(content: &[T], random: &mut Random) -> Self {
        let mut elements = |count: usize| (0..count).map(|_| T::random(random)).collect::<Vec<T>>();
        let first = elements(16);
        let last = elements(16);
        let start = random.between(1, 16);
        let memory = [&first[..start], content, &last].concat();
        Guarded { before: memory.clone(), memory, start, length: content.len() }
    }

    /// Lends so many elements with random content.
    pub fn filled(length: usize, random: &mut Random) -> Self {
        let content: Vec<T> = (0..length).map(|_| T::random(random)).collect();
        Guarded::holding(&content, random)
    }

    pub fn len(&self) -> usize {
        self.length
    }

    pub fn ptr(&self) -> *const T {
        self.memory[self.start..].as_ptr()
    }

    pub fn mut_ptr(&mut self) -> *mut T {
        self.memory[self.start..].as_mut_ptr()
    }

    /// What is lent, as it is now.
    pub fn now(&self) -> &[T] {
        &self.memory[self.start..self.start + self.length]
    }

    /// What was lent, as it was before the call.
    pub fn then(&self) -> &[T] {
        &self.before[self.start..self.start + self.length]
    }

    /// Whether nothing at all has changed, in what is lent and in the guards.
    pub fn untouched(&self) -> bool {
        self.memory == self.before
    }

    /// Whether nothing has changed from the n-th element of what is lent on, and nothing before it.
    pub fn kept_beyond(&self, n: usize) -> bool {
        self.memory[..self.start] == self.before[..self.start]
            && self.memory[self.start + n..] == self.before[self.start + n..]
    }

    /// What is there now becomes what was there before, for the next call.
    pub fn settle(&mut self) {
        self.before.clone_from(&self.memory);
    }
}
