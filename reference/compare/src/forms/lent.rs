//! Lent memory: the places that a call is given, with guard places around
//! them.

use reference::rng::Rng;

/// The guard places on each side.
const GUARDS: usize = 8;

/// What a place may hold.
pub trait Value: Copy + PartialEq {
    fn random(rng: &mut Rng) -> Self;
}

impl Value for u8 {
    fn random(rng: &mut Rng) -> u8 {
        rng.draw() as u8
    }
}

impl Value for u64 {
    fn random(rng: &mut Rng) -> u64 {
        rng.draw()
    }
}

/// Lent places between guard places.
#[derive(Clone, PartialEq, Eq)]
pub struct Lent<T> {
    places: Vec<T>,
    length: usize,
}

impl<T: Value> Lent<T> {
    /// Random values, `length` of them lent. The guard places after them take
    /// `needed` values of a call that does not look at the length.
    pub fn random(rng: &mut Rng, length: usize, needed: usize) -> Lent<T> {
        let count = GUARDS + length.max(needed) + GUARDS;
        let places = (0..count).map(|_| T::random(rng)).collect();
        Lent { places, length }
    }

    /// How many places are lent.
    pub fn length(&self) -> usize {
        self.length
    }

    /// The lent places.
    pub fn lent_mut(&mut self) -> &mut [T] {
        &mut self.places[GUARDS..GUARDS + self.length]
    }

    /// The same memory with these values in the first lent places.
    pub fn beginning_with(&self, values: &[T]) -> Lent<T> {
        let mut after = self.clone();
        after.lent_mut()[..values.len()].copy_from_slice(values);
        after
    }

    /// The first place that differs, guard places counted.
    pub fn first_difference(&self, other: &Lent<T>) -> Option<usize> {
        if self.places == other.places {
            return None;
        }
        let mut pairs = self.places.iter().zip(&other.places);
        pairs.position(|(left, right)| left != right)
    }

    /// The value of a place, and the place counted from the first lent one.
    pub fn at(&self, place: usize) -> (isize, T) {
        (place as isize - GUARDS as isize, self.places[place])
    }
}
