//! The code: its parameters, the array over a file of symbols, and which
//! places each call reads, in order.

use crate::field::{point, weighted, weights, Field};
use crate::store::{Place, MAX_ROWS};

/// k data nodes, a Class A nodes of which τ carry piggybacks, b Class B nodes.
#[derive(Clone, Copy, Debug, PartialEq, Eq)]
pub struct Parameters {
    pub k: usize,
    pub a: usize,
    pub tau: usize,
    pub b: usize,
}

/// What a node is for.
#[derive(Clone, Copy, Debug, PartialEq, Eq)]
pub enum NodeKind {
    Data,
    /// The row rule's value alone.
    Plain,
    /// The row rule's value plus the data symbol `t` rows below the diagonal.
    Piggybacked {
        t: usize,
    },
    /// The Class B node of this step.
    ClassB {
        step: usize,
    },
}

/// A place on a sheet, and the part of the sheet that lists it.
#[derive(Clone, Copy, Debug, PartialEq, Eq)]
pub struct Listed {
    pub part: u8,
    pub place: Place,
}

/// The places a call reads, in order, none twice.
pub struct Sheet {
    pub places: Vec<Listed>,
    /// One bit for each node, row by row: which places are listed.
    listed: [u128; MAX_ROWS],
}

impl Sheet {
    fn new() -> Self {
        Sheet { places: Vec::new(), listed: [0; MAX_ROWS] }
    }

    /// Lists a place; one already listed is skipped.
    fn list(&mut self, part: u8, row: usize, node: usize) {
        if !self.has(row, node) {
            self.listed[row] |= 1 << node;
            self.places.push(Listed { part, place: Place { row, node } });
        }
    }

    pub fn has(&self, row: usize, node: usize) -> bool {
        self.listed[row] >> node & 1 == 1
    }
}

impl Parameters {
    /// Declines with 11 to 14, in this order.
    pub fn check(k: usize, a: usize, tau: usize, b: usize) -> Result<Self, u8> {
        if !(3..=32).contains(&k) {
            Err(11)
        } else if !(2..k).contains(&a) {
            Err(12)
        } else if !(1..a).contains(&tau) {
            Err(13)
        } else if b > k - tau - 1 {
            Err(14)
        } else {
            Ok(Parameters { k, a, tau, b })
        }
    }

    /// The number of nodes.
    pub fn n(&self) -> usize {
        self.k + self.a + self.b
    }

    /// The last step: τ + b.
    pub fn last_step(&self) -> usize {
        self.tau + self.b
    }

    /// k − τ − b: with Class B nodes, how many terms the last one's sums have.
    pub fn rho(&self) -> usize {
        self.k - self.last_step()
    }

    pub fn kind(&self, node: usize) -> NodeKind {
        let first_piggybacked = self.k + self.a - self.tau;
        let first_class_b = self.k + self.a;
        if node < self.k {
            NodeKind::Data
        } else if node < first_piggybacked {
            NodeKind::Plain
        } else if node < first_class_b {
            NodeKind::Piggybacked { t: node - first_piggybacked + 1 }
        } else {
            NodeKind::ClassB { step: node - first_class_b + self.tau + 1 }
        }
    }

    /// The node that carries the data symbol of this offset (1 to the last
    /// step) of data node j in row j: piggybacked up to τ, Class B above.
    pub fn step_node(&self, step: usize) -> usize {
        self.k + self.a - self.tau + step - 1
    }

    /// (x + y) modulo k.
    fn wrap(&self, x: usize, y: usize) -> usize {
        (x + y) % self.k
    }

    /// How far row i is below the diagonal in data node j.
    pub fn offset(&self, i: usize, j: usize) -> usize {
        (i + self.k - j) % self.k
    }

    /// The data places that the Class B symbol of step `step` in row i sums.
    fn class_b_terms(&self, step: usize, i: usize) -> impl Iterator<Item = Place> + '_ {
        let lead = Place { row: self.wrap(i, step), node: i };
        let in_row = (1..self.k - step).map(move |m| Place { row: i, node: self.wrap(i, m) });
        std::iter::once(lead).chain(in_row)
    }

    /// The points of the data nodes.
    pub fn data_points<F: Field>(&self) -> Vec<F> {
        (0..self.k).map(point).collect()
    }

    /// The nodes that solve a row of data node j by the row rule: the other
    /// data nodes, then node k.
    pub fn row_nodes(&self, j: usize) -> impl Iterator<Item = usize> {
        (0..=self.k).filter(move |&node| node != j)
    }

    /// Rows 0 to k − 1 of a parity node, from the data.
    pub fn parity<F: Field>(&self, node: usize, data: impl Fn(Place) -> F) -> Vec<F> {
        let row_rule = || {
            let weights = weights(&self.data_points::<F>(), point(node));
            let value = |row| weighted(&weights, (0..self.k).map(|node| data(Place { row, node })));
            (0..self.k).map(value).collect::<Vec<F>>()
        };
        match self.kind(node) {
            NodeKind::Data => panic!("node {node} is a data node"),
            NodeKind::Plain => row_rule(),
            NodeKind::Piggybacked { t } => {
                let piggyback = |i| data(Place { row: self.wrap(i, t), node: i });
                row_rule().into_iter().enumerate().map(|(i, q)| q + piggyback(i)).collect()
            }
            NodeKind::ClassB { step } => (0..self.k)
                .map(|i| self.class_b_terms(step, i).fold(F::ZERO, |sum, term| sum + data(term)))
                .collect(),
        }
    }

    /// The whole array over k × k data symbols given row by row: for each
    /// node, its rows 0 to k − 1.
    pub fn array<F: Field>(&self, data: &[F]) -> Vec<Vec<F>> {
        let at = |place: Place| data[self.k * place.row + place.node];
        (0..self.n())
            .map(|node| match self.kind(node) {
                NodeKind::Data => (0..self.k).map(|row| at(Place { row, node })).collect(),
                _ => self.parity(node, at),
            })
            .collect()
    }

    /// What a mend of this node reads.
    pub fn mend_sheet(&self, node: usize) -> Sheet {
        match self.kind(node) {
            NodeKind::Data => self.data_sheet(node),
            NodeKind::Plain | NodeKind::Piggybacked { .. } => self.data_from_offset(0),
            NodeKind::ClassB { step } => self.data_from_offset(step),
        }
    }

    fn data_sheet(&self, j: usize) -> Sheet {
        let mut sheet = Sheet::new();
        for node in self.row_nodes(j) {
            sheet.list(1, j, node);
        }
        for step in 1..=self.last_step() {
            let part = if step <= self.tau { 2 } else { 3 };
            sheet.list(part, j, self.step_node(step));
        }
        for offset in self.last_step() + 1..self.k {
            let i = self.wrap(j, offset);
            if self.b == 0 {
                for node in self.row_nodes(j) {
                    sheet.list(4, i, node);
                }
            } else {
                self.list_class_b(&mut sheet, 4, self.last_step(), i, Place { row: i, node: j });
            }
        }
        sheet
    }

    /// A Class B symbol, then its data without the place to be solved.
    fn list_class_b(&self, sheet: &mut Sheet, part: u8, step: usize, row: usize, solved: Place) {
        sheet.list(part, row, self.step_node(step));
        for term in self.class_b_terms(step, row).filter(|&term| term != solved) {
            sheet.list(part, term.row, term.node);
        }
    }

    /// The data places of at least this offset, row by row, node rising.
    fn data_from_offset(&self, offset: usize) -> Sheet {
        let mut sheet = Sheet::new();
        for row in 0..self.k {
            for node in 0..self.k {
                if self.offset(row, node) >= offset {
                    sheet.list(1, row, node);
                }
            }
        }
        sheet
    }

    /// What a fetch of d(i, j) reads when that place is blank, and how it is
    /// solved.
    pub fn fetch_sheet(&self, i: usize, j: usize) -> (Sheet, FetchRule) {
        let mut sheet = Sheet::new();
        let offset = self.offset(i, j);
        let solved = Place { row: i, node: j };
        if offset > self.tau && self.b >= 1 {
            let step = offset.min(self.last_step());
            let row = if offset == step { j } else { i };
            self.list_class_b(&mut sheet, 1, step, row, solved);
            (sheet, FetchRule::ClassB)
        } else {
            for node in self.row_nodes(j) {
                sheet.list(1, i, node);
            }
            (sheet, FetchRule::Row)
        }
    }

    /// What a put of d(i, j) reads and changes.
    pub fn put_sheet(&self, i: usize, j: usize) -> Sheet {
        let mut sheet = Sheet::new();
        let offset = self.offset(i, j);
        sheet.list(1, i, j);
        for node in self.k..self.k + self.a {
            sheet.list(1, i, node);
        }
        if (1..=self.tau).contains(&offset) {
            sheet.list(1, j, self.step_node(offset));
        }
        for step in self.tau + 1..=self.last_step().min(offset) {
            // Row j's symbol of a step leads with d(j + step, j); every other
            // symbol that contains d(i, j) lies in row i and has a lower step.
            let row = if offset == step { j } else { i };
            sheet.list(1, row, self.step_node(step));
        }
        sheet
    }
}

/// How a blank data place is solved.
#[derive(Clone, Copy, Debug, PartialEq, Eq)]
pub enum FetchRule {
    /// By a Class B symbol, less the rest of the sheet.
    ClassB,
    /// By the row rule from the row's other places.
    Row,
}

/// Every parameter set with k from `low` to `high`.
pub fn parameter_sets(low: usize, high: usize) -> Vec<Parameters> {
    let mut sets = Vec::new();
    for k in low..=high {
        for a in 2..k {
            for tau in 1..a {
                for b in 0..k - tau {
                    sets.push(Parameters { k, a, tau, b });
                }
            }
        }
    }
    sets
}

#[cfg(test)]
mod tests {
    use super::*;
    use crate::field::Decimal;

    #[test]
    fn bounds() {
        let check = |k, a, tau, b| Parameters::check(k, a, tau, b).err();
        assert_eq!(check(2, 0, 0, 9), Some(11));
        assert_eq!(check(33, 2, 1, 1), Some(11));
        assert_eq!(check(4, 1, 0, 9), Some(12));
        assert_eq!(check(4, 4, 1, 1), Some(12));
        assert_eq!(check(4, 2, 0, 9), Some(13));
        assert_eq!(check(4, 2, 2, 9), Some(13));
        assert_eq!(check(4, 2, 1, 3), Some(14));
        for (k, a, tau, b) in [(3, 2, 1, 1), (32, 31, 1, 30), (32, 31, 30, 1), (4, 2, 1, 2)] {
            assert_eq!(check(k, a, tau, b), None);
        }
        assert_eq!(Parameters { k: 32, a: 31, tau: 1, b: 30 }.n(), 93);
    }

    #[test]
    fn worked_array() {
        let digits = |text: &str| -> Vec<Decimal> {
            text.split(' ').map(|word| Decimal::from_word(word.as_bytes()).unwrap()).collect()
        };
        let parameters = Parameters::check(4, 2, 1, 1).unwrap();
        let array = parameters.array(&digits("3 1 4 1 5 9 2 6 5 3 5 8 9 7 9 3"));
        let rows = ["3 1 4 1 3 4 6", "5 9 2 6 X 6 9", "5 3 5 8 9 3 1", "9 7 9 3 X 8 4"];
        for (row, text) in rows.iter().enumerate() {
            let symbols: Vec<Decimal> = array.iter().map(|node| node[row]).collect();
            assert_eq!(symbols, digits(text));
        }
    }

    #[test]
    fn worked_mend() {
        let sheet = Parameters::check(4, 2, 1, 1).unwrap().mend_sheet(1);
        let places: Vec<_> =
            sheet.places.iter().map(|l| (l.part, l.place.row, l.place.node)).collect();
        let expected = [
            (1, 1, 0),
            (1, 1, 2),
            (1, 1, 3),
            (1, 1, 4),
            (2, 1, 5),
            (3, 1, 6),
            (4, 0, 6),
            (4, 2, 0),
        ];
        assert_eq!(places, expected);
    }

    #[test]
    fn worked_sizes() {
        let sizes = [
            (4, 2, 1, 1, 8),
            (4, 2, 1, 2, 7),
            (5, 2, 1, 0, 21),
            (5, 2, 1, 1, 12),
            (5, 2, 1, 3, 9),
            (6, 3, 2, 1, 15),
            (8, 4, 3, 2, 19),
        ];
        for (k, a, tau, b, size) in sizes {
            let parameters = Parameters::check(k, a, tau, b).unwrap();
            for node in 0..k {
                assert_eq!(parameters.mend_sheet(node).places.len(), size);
            }
        }
    }

    /// A put's Class B places are those whose sums contain the symbol.
    #[test]
    fn put_reaches_every_class_b_symbol() {
        for p in parameter_sets(3, 8) {
            for i in 0..p.k {
                for j in 0..p.k {
                    let put = p.put_sheet(i, j);
                    for step in p.tau + 1..=p.last_step() {
                        for row in 0..p.k {
                            let contains = p
                                .class_b_terms(step, row)
                                .any(|term| term == Place { row: i, node: j });
                            assert_eq!(put.has(row, p.step_node(step)), contains, "{p:?} {i} {j}");
                        }
                    }
                }
            }
        }
    }

    /// The size of each sheet by its formula, over all parameters up to k = 10.
    #[test]
    fn sizes_by_formula() {
        for p in parameter_sets(3, 10) {
            let (k, s, rho) = (p.k, p.last_step(), p.rho());
            let repeated = usize::from(2 * s < k);
            let data = if p.b == 0 {
                k + p.tau + (rho - 1) * k
            } else {
                k + s + rho * (rho - 1) - repeated
            };
            for node in 0..p.n() {
                let size = match p.kind(node) {
                    NodeKind::Data => data,
                    NodeKind::ClassB { step } => k * (k - step),
                    _ => k * k,
                };
                let sheet = p.mend_sheet(node);
                assert_eq!(sheet.places.len(), size, "{p:?} node {node}");
                assert!(size <= k * k);
                assert!(sheet.places.iter().all(|l| l.place.node != node && l.place.node < p.n()));
            }
            for i in 0..k {
                for j in 0..k {
                    let o = p.offset(i, j);
                    let by_class_b = o > p.tau && p.b >= 1;
                    let fetch = if by_class_b { k - o.min(s) } else { k };
                    assert_eq!(p.fetch_sheet(i, j).0.places.len(), fetch, "{p:?} fetch {i} {j}");
                    let piggyback = usize::from((1..=p.tau).contains(&o));
                    let class_b = o.min(s).saturating_sub(p.tau);
                    let put = 1 + p.a + piggyback + class_b;
                    assert_eq!(p.put_sheet(i, j).places.len(), put, "{p:?} put {i} {j}");
                }
            }
        }
    }
}
