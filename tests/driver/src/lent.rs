// A lent slice with a margin on each side, so that a write outside of it is seen.

const MARGIN: usize = 16;

pub struct Lent<T> {
    all: Vec<T>,
    length: usize,
    edge: T,
}

impl<T: Copy + PartialEq> Lent<T> {
    pub fn new(most: usize, edge: T) -> Lent<T> {
        Lent { all: vec![edge; most + 2 * MARGIN], length: 0, edge }
    }

    /// Lends so many elements, each with this value.
    pub fn lend(&mut self, length: usize, fill: T) -> &mut [T] {
        if self.all.len() < length + 2 * MARGIN {
            self.all.resize(length + 2 * MARGIN, self.edge);
        }
        self.length = length;
        self.all[..MARGIN].fill(self.edge);
        self.all[MARGIN + length..2 * MARGIN + length].fill(self.edge);
        let lent = &mut self.all[MARGIN..MARGIN + length];
        lent.fill(fill);
        lent
    }

    pub fn get(&self) -> &[T] {
        &self.all[MARGIN..MARGIN + self.length]
    }

    pub fn get_mut(&mut self) -> &mut [T] {
        &mut self.all[MARGIN..MARGIN + self.length]
    }

    /// Whether nothing was written on either side of what was lent.
    pub fn kept(&self) -> bool {
        let after = MARGIN + self.length;
        self.all[..MARGIN].iter().chain(&self.all[after..after + MARGIN]).all(|x| *x == self.edge)
    }
}
