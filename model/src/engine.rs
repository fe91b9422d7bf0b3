//! Making and the six calls, on an engine of checked parameters and a store.

use crate::code::{FetchRule, Listed, NodeKind, Parameters, Sheet};
use crate::field::{point, weight, weighted, weights, Field};
use crate::store::{Place, Store, StoreFault, MAX_NODES, MAX_ROWS};

/// A record of working memory.
#[derive(Clone, Copy, Debug, PartialEq)]
pub struct Record<F> {
    pub place: Place,
    pub symbol: F,
}

impl<F: Field> Record<F> {
    pub const ZERO: Self = Record { place: Place { row: 0, node: 0 }, symbol: F::ZERO };
}

/// A place of a sheet that the store declines, with the sheet's part.
#[derive(Clone, Copy, Debug, PartialEq, Eq)]
pub struct SheetFault {
    pub part: u8,
    pub store: StoreFault,
}

/// Why a call is declined.
#[derive(Clone, Debug, PartialEq, Eq)]
pub enum Decline {
    Number(u8),
    /// Every place of the sheet that is blank (41) or worn (42), in the
    /// sheet's order; a decline may name any of them.
    Sheet(Vec<SheetFault>),
}

type Outcome<T> = Result<T, Decline>;

#[derive(Clone, Copy, Debug, PartialEq, Eq)]
pub struct Engine {
    pub parameters: Parameters,
}

/// The symbols a call has read, by place, in the caller's memory.
struct Cache<'m, F> {
    records: &'m mut [Record<F>],
    /// For each place, the index of its record.
    index: [u16; MAX_ROWS * MAX_NODES],
}

impl<'m, F: Field> Cache<'m, F> {
    fn new(records: &'m mut [Record<F>]) -> Self {
        Cache { records, index: [0; MAX_ROWS * MAX_NODES] }
    }

    fn keep(&mut self, used: usize, record: Record<F>) {
        self.records[used] = record;
        self.index[MAX_NODES * record.place.row + record.place.node] = used as u16;
    }

    fn symbol(&self, place: Place) -> F {
        let record = self.records[usize::from(self.index[MAX_NODES * place.row + place.node])];
        debug_assert_eq!(record.place, place);
        record.symbol
    }

    fn reset(self) {
        self.records.fill(Record::ZERO);
    }
}

impl Engine {
    /// Clears the nodes of the array and answers their number.
    pub fn make<F: Field, S: Store<F>>(
        store: &mut S,
        [k, a, tau, b]: [usize; 4],
    ) -> Outcome<(Engine, usize)> {
        let parameters = Parameters::check(k, a, tau, b).map_err(Decline::Number)?;
        let engine = Engine { parameters };
        engine.fits(store)?;
        for node in 0..parameters.n() {
            on_store(store.clear(node));
        }
        Ok((engine, parameters.n()))
    }

    /// Writes the whole array from k × k symbols, row by row.
    pub fn set<F: Field, S: Store<F>>(&self, store: &mut S, data: &[F]) -> Outcome<usize> {
        self.fits(store)?;
        let k = self.parameters.k;
        if data.len() != k * k {
            return Err(Decline::Number(18));
        }
        for (node, symbols) in self.parameters.array(data).into_iter().enumerate() {
            write_node(store, node, &symbols);
        }
        Ok(0)
    }

    /// Replaces one data symbol, and what depends on it; answers the reads.
    pub fn put<F: Field, S: Store<F>>(
        &self,
        store: &mut S,
        at: Place,
        symbol: F,
    ) -> Outcome<usize> {
        self.fits(store)?;
        self.data_place(at)?;
        let Parameters { k, a, .. } = self.parameters;
        let sheet = self.parameters.put_sheet(at.row, at.node);
        probe_all(store, &sheet.places)?;
        let points = self.parameters.data_points::<F>();
        let mut change = F::ZERO;
        for listed in &sheet.places {
            let place = listed.place;
            let old = on_store(store.read(place));
            if place == at {
                change = symbol - old;
            }
            let by_row_rule = place.row == at.row && (k..k + a).contains(&place.node);
            let factor =
                if by_row_rule { weight(&points, at.node, point(place.node)) } else { F::ONE };
            on_store(store.write(place, old + factor * change));
        }
        Ok(sheet.places.len())
    }

    /// Answers one data symbol and the reads it took.
    pub fn fetch<F: Field, S: Store<F>>(
        &self,
        store: &mut S,
        at: Place,
        memory: &mut [Record<F>],
    ) -> Outcome<(usize, F)> {
        self.fits(store)?;
        self.data_place(at)?;
        self.memory_suffices(memory)?;
        if store.content(at).0.is_some() {
            probe_all(store, &[Listed { part: 1, place: at }])?;
            let symbol = on_store(store.read(at));
            memory.fill(Record::ZERO);
            return Ok((1, symbol));
        }
        let (sheet, rule) = self.parameters.fetch_sheet(at.row, at.node);
        let cache = gather(store, &sheet, memory)?;
        let symbols = sheet.places.iter().map(|listed| cache.symbol(listed.place));
        let symbol = match rule {
            FetchRule::ClassB => {
                symbols.reduce(|sum, term| sum - term).expect("a sheet has places")
            }
            FetchRule::Row => weighted(&self.row_weights(at.node), symbols),
        };
        cache.reset();
        Ok((sheet.places.len(), symbol))
    }

    /// Clears a node; answers the sum of its meters.
    pub fn lose<F: Field, S: Store<F>>(&self, store: &mut S, node: usize) -> Outcome<usize> {
        self.fits(store)?;
        self.node(node)?;
        Ok(on_store(store.clear(node)))
    }

    /// Sets a node's meters to 0; answers their sum.
    pub fn refresh<F: Field, S: Store<F>>(&self, store: &mut S, node: usize) -> Outcome<usize> {
        self.fits(store)?;
        self.node(node)?;
        Ok(on_store(store.refresh(node)))
    }

    /// Rewrites a lost node; answers the reads.
    pub fn mend<F: Field, S: Store<F>>(
        &self,
        store: &mut S,
        node: usize,
        memory: &mut [Record<F>],
    ) -> Outcome<usize> {
        self.fits(store)?;
        self.node(node)?;
        self.memory_suffices(memory)?;
        if !self.lost(store, node) {
            return Err(Decline::Number(40));
        }
        let sheet = self.parameters.mend_sheet(node);
        let cache = gather(store, &sheet, memory)?;
        let symbols = match self.parameters.kind(node) {
            NodeKind::Data => self.solve_data(node, |place| cache.symbol(place)),
            _ => self.parameters.parity(node, |place| cache.symbol(place)),
        };
        write_node(store, node, &symbols);
        cache.reset();
        Ok(sheet.places.len())
    }

    /// Whether a place of the node in rows 0 to k − 1 is blank.
    pub fn lost<F: Field, S: Store<F>>(&self, store: &S, node: usize) -> bool {
        (0..self.parameters.k).any(|row| store.content(Place { row, node }).0.is_none())
    }

    /// Rows 0 to k − 1 of data node j, from the symbols on its sheet.
    fn solve_data<F: Field>(&self, j: usize, read: impl Fn(Place) -> F) -> Vec<F> {
        let p = &self.parameters;
        let (k, last_step) = (p.k, p.last_step());
        let read = |row, node| read(Place { row: row % k, node });
        let row_weights = self.row_weights::<F>(j);
        let by_row = |i| weighted(&row_weights, p.row_nodes(j).map(|node| read(i, node)));
        let points = p.data_points::<F>();
        let diagonal = by_row(j);
        let mut symbols = vec![F::ZERO; k];
        for offset in 0..k {
            let i = (j + offset) % k;
            symbols[i] = if offset == 0 {
                diagonal
            } else if offset <= p.tau {
                let node = p.step_node(offset);
                let data = (0..k).map(|c| if c == j { diagonal } else { read(j, c) });
                read(j, node) - weighted(&weights(&points, point(node)), data)
            } else if offset <= last_step {
                let others = (1..k - offset).map(|m| read(j, (j + m) % k));
                others.fold(read(j, p.step_node(offset)), |sum, term| sum - term)
            } else if p.b >= 1 {
                let nodes = (1..p.rho()).map(|m| (i + m) % k).filter(|&node| node != j);
                let sum = read(i, p.step_node(last_step)) - read(i + last_step, i);
                nodes.fold(sum, |sum, node| sum - read(i, node))
            } else {
                by_row(i)
            };
        }
        symbols
    }

    /// The weights that give a row's symbol of data node j from the other data
    /// nodes and node k.
    fn row_weights<F: Field>(&self, j: usize) -> Vec<F> {
        let points: Vec<F> = self.parameters.row_nodes(j).map(point).collect();
        weights(&points, point(j))
    }

    /// The field and the store are large enough for the parameters.
    fn fits<F: Field, S: Store<F>>(&self, store: &S) -> Outcome<()> {
        let p = &self.parameters;
        if F::SIZE < p.k + p.a {
            Err(Decline::Number(15))
        } else if store.rows() < p.k || store.nodes() < p.n() {
            Err(Decline::Number(16))
        } else {
            Ok(())
        }
    }

    fn data_place(&self, place: Place) -> Outcome<()> {
        number_unless(17, place.row < self.parameters.k && place.node < self.parameters.k)
    }

    fn node(&self, node: usize) -> Outcome<()> {
        number_unless(17, node < self.parameters.n())
    }

    fn memory_suffices<F>(&self, memory: &[Record<F>]) -> Outcome<()> {
        number_unless(19, memory.len() >= self.parameters.k * self.parameters.k)
    }
}

fn number_unless(number: u8, holds: bool) -> Outcome<()> {
    if holds {
        Ok(())
    } else {
        Err(Decline::Number(number))
    }
}

/// What a store call answers on a place that was checked before.
fn on_store<T>(answer: Result<T, StoreFault>) -> T {
    answer.expect("the place was checked before")
}

/// Declines with every place that cannot be read; changes nothing.
fn probe_all<F: Field, S: Store<F>>(store: &S, places: &[Listed]) -> Outcome<()> {
    let mut faults = Vec::new();
    for listed in places {
        if let Err(fault) = store.probe(listed.place) {
            faults.push(SheetFault { part: listed.part, store: fault });
        }
    }
    if faults.is_empty() {
        Ok(())
    } else {
        Err(Decline::Sheet(faults))
    }
}

/// Reads each place of a sheet once, if all of them can be read.
fn gather<'m, F: Field, S: Store<F>>(
    store: &mut S,
    sheet: &Sheet,
    memory: &'m mut [Record<F>],
) -> Outcome<Cache<'m, F>> {
    probe_all(store, &sheet.places)?;
    let mut cache = Cache::new(memory);
    for (used, listed) in sheet.places.iter().enumerate() {
        let symbol = on_store(store.read(listed.place));
        cache.keep(used, Record { place: listed.place, symbol });
    }
    Ok(cache)
}

fn write_node<F: Field, S: Store<F>>(store: &mut S, node: usize, symbols: &[F]) {
    for (row, &symbol) in symbols.iter().enumerate() {
        on_store(store.write(Place { row, node }, symbol));
    }
}

#[cfg(test)]
mod tests {
    use super::*;
    use crate::code::parameter_sets;
    use crate::field::{Byte, Decimal};
    use crate::random::Random;
    use crate::store::{Bank, CardImage, Cause};

    struct Made<F, S> {
        engine: Engine,
        store: S,
        memory: Vec<Record<F>>,
        data: Vec<F>,
    }

    fn random_symbol<F: Field>(random: &mut Random) -> F {
        F::symbol(random.below(F::SIZE) as u16).unwrap()
    }

    fn made<F: Field, S: Store<F>>(mut store: S, p: Parameters, random: &mut Random) -> Made<F, S> {
        let (engine, n) = Engine::make(&mut store, [p.k, p.a, p.tau, p.b]).unwrap();
        assert_eq!(n, p.n());
        let data: Vec<F> = (0..p.k * p.k).map(|_| random_symbol(random)).collect();
        engine.set(&mut store, &data).unwrap();
        Made { engine, store, memory: vec![Record::ZERO; p.k * p.k], data }
    }

    impl<F: Field, S: Store<F>> Made<F, S> {
        /// The store holds the array over the data.
        fn assert_array(&self) {
            let array = self.engine.parameters.array(&self.data);
            for (node, symbols) in array.iter().enumerate() {
                for (row, &symbol) in symbols.iter().enumerate() {
                    assert_eq!(self.store.content(Place { row, node }).0, Some(symbol));
                }
            }
        }

        fn meters(&self) -> usize {
            (0..self.store.nodes()).map(|node| self.store.metered(node).unwrap()).sum()
        }

        /// Each node comes back from its sheet alone.
        fn mends_every_node(&mut self) {
            for node in 0..self.engine.parameters.n() {
                self.engine.lose(&mut self.store, node).unwrap();
                let before = self.meters();
                let sheet = self.engine.parameters.mend_sheet(node);
                let count = self.engine.mend(&mut self.store, node, &mut self.memory).unwrap();
                assert_eq!(count, sheet.places.len());
                assert_eq!(self.meters(), before + count);
                assert!(self.memory.iter().all(|record| *record == Record::ZERO));
                self.assert_array();
                for node in 0..self.engine.parameters.n() {
                    self.engine.refresh(&mut self.store, node).unwrap();
                }
            }
        }

        /// Each data symbol of a lost node can be fetched.
        fn fetches_every_place(&mut self) {
            let k = self.engine.parameters.k;
            for node in 0..k {
                self.engine.lose(&mut self.store, node).unwrap();
                for row in 0..k {
                    let at = Place { row, node };
                    let before = self.meters();
                    let (count, symbol) =
                        self.engine.fetch(&mut self.store, at, &mut self.memory).unwrap();
                    assert_eq!(symbol, self.data[k * row + node]);
                    assert_eq!(self.meters(), before + count);
                    assert!(self.memory.iter().all(|record| *record == Record::ZERO));
                }
                self.engine.mend(&mut self.store, node, &mut self.memory).unwrap();
                for node in 0..self.engine.parameters.n() {
                    self.engine.refresh(&mut self.store, node).unwrap();
                }
            }
        }

        /// A put leaves the array over the changed data.
        fn puts_every_place(&mut self, random: &mut Random) {
            let k = self.engine.parameters.k;
            for row in 0..k {
                for node in 0..k {
                    let symbol = random_symbol(random);
                    let before = self.meters();
                    let count =
                        self.engine.put(&mut self.store, Place { row, node }, symbol).unwrap();
                    assert_eq!(self.meters(), before + count);
                    self.data[k * row + node] = symbol;
                    self.assert_array();
                }
                for node in 0..self.engine.parameters.n() {
                    self.engine.refresh(&mut self.store, node).unwrap();
                }
            }
        }

        fn all(&mut self, random: &mut Random) {
            self.mends_every_node();
            self.fetches_every_place();
            self.puts_every_place(random);
        }
    }

    #[test]
    fn decimals_over_all_parameters() {
        let random = &mut Random::new(1);
        for p in parameter_sets(3, 8).into_iter().filter(|p| p.k + p.a <= 11) {
            made::<Decimal, _>(Bank::new(32, 93).unwrap(), p, random).all(random);
            made::<Decimal, _>(CardImage::new(p.k, p.n()).unwrap(), p, random).all(random);
        }
    }

    #[test]
    fn bytes_over_many_parameters() {
        let random = &mut Random::new(2);
        for p in parameter_sets(3, 7) {
            made::<Byte, _>(Bank::new(p.k, p.n()).unwrap(), p, random).all(random);
            made::<Byte, _>(CardImage::new(32, 93).unwrap(), p, random).all(random);
        }
        for p in parameter_sets(8, 32)
            .into_iter()
            .filter(|_| random.chance(1))
            .take(12)
            .collect::<Vec<_>>()
        {
            made::<Byte, _>(Bank::new(p.k, p.n()).unwrap(), p, random).mends_every_node();
            made::<Byte, _>(Bank::new(p.k, p.n()).unwrap(), p, random).fetches_every_place();
        }
    }

    #[test]
    fn a_field_or_store_too_small_is_declined_first() {
        let p = Parameters::check(8, 4, 3, 2).unwrap();
        let engine = Engine { parameters: p };
        let mut decimals = Bank::<Decimal>::new(32, 93).unwrap();
        assert_eq!(engine.set(&mut decimals, &[]), Err(Decline::Number(15)));
        assert_eq!(engine.lose(&mut decimals, 99), Err(Decline::Number(15)));
        let mut few_rows = Bank::<Byte>::new(7, 14).unwrap();
        let mut few_nodes = Bank::<Byte>::new(8, 13).unwrap();
        assert_eq!(engine.mend(&mut few_rows, 99, &mut []), Err(Decline::Number(16)));
        assert_eq!(engine.refresh(&mut few_nodes, 0), Err(Decline::Number(16)));
        assert_eq!(Engine::make(&mut few_nodes, [8, 4, 3, 2]), Err(Decline::Number(16)));
        assert!(Engine::make(&mut Bank::<Byte>::new(8, 14).unwrap(), [8, 4, 3, 2]).is_ok());
    }

    #[test]
    fn the_checks_run_in_rising_number() {
        let random = &mut Random::new(3);
        let p = Parameters::check(4, 2, 1, 1).unwrap();
        let mut made = made::<Decimal, _>(CardImage::new(4, 7).unwrap(), p, random);
        let (engine, store) = (made.engine, &mut made.store);
        let place = Place { row: 0, node: 4 };
        assert_eq!(engine.fetch(store, place, &mut []), Err(Decline::Number(17)));
        let place = Place { row: 0, node: 3 };
        let short = &mut made.memory[..15];
        assert_eq!(engine.fetch(store, place, short), Err(Decline::Number(19)));
        assert_eq!(engine.mend(store, 7, short), Err(Decline::Number(17)));
        assert_eq!(engine.mend(store, 1, short), Err(Decline::Number(19)));
        assert_eq!(engine.mend(store, 1, &mut made.memory), Err(Decline::Number(40)));
        engine.lose(store, 1).unwrap();
        engine.lose(store, 5).unwrap();
        let fault = |part, row, node, cause| SheetFault {
            part,
            store: StoreFault { place: Place { row, node }, cause },
        };
        let blank = Decline::Sheet(vec![fault(2, 1, 5, Cause::Blank)]);
        assert_eq!(engine.mend(store, 1, &mut made.memory), Err(blank));
    }
}
