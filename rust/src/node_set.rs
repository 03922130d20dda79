//! Sets of node numbers.

/// A set of numbers below a bound, one bit each.
#[derive(Clone, Debug, PartialEq, Eq)]
pub(crate) struct NodeSet {
    words: Vec<u64>,
    bound: usize,
}

impl NodeSet {
    /// Returns the empty set of numbers below `bound`.
    pub(crate) fn empty(bound: usize) -> Self {
        NodeSet { words: vec![0; bound.div_ceil(64)], bound }
    }

    /// Returns the set of these numbers, all below `bound`.
    pub(crate) fn of(bound: usize, numbers: impl IntoIterator<Item = usize>) -> Self {
        let mut set = NodeSet::empty(bound);
        for number in numbers {
            assert!(number < bound, "a node number is in the graph");
            set.words[number / 64] |= 1 << (number % 64);
        }
        set
    }

    pub(crate) fn contains(&self, number: usize) -> bool {
        number < self.bound && self.words[number / 64] & (1 << (number % 64)) != 0
    }

    pub(crate) fn len(&self) -> usize {
        self.words.iter().map(|word| word.count_ones() as usize).sum()
    }

    pub(crate) fn is_empty(&self) -> bool {
        self.words.iter().all(|word| *word == 0)
    }

    /// Returns the numbers of the set, ascending.
    pub(crate) fn iter(&self) -> impl Iterator<Item = usize> + '_ {
        (0..self.bound).filter(|number| self.contains(*number))
    }

    /// Returns the set whose words are made from those of this set and of `other`, which has the same bound.
    pub(crate) fn combined(&self, other: &NodeSet, word: impl Fn(u64, u64) -> u64) -> NodeSet {
        assert_eq!(self.bound, other.bound, "both sets are of one graph");
        let words = self.words.iter().zip(&other.words).map(|(a, b)| word(*a, *b)).collect();
        NodeSet { words, bound: self.bound }
    }
}
