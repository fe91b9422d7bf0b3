//! Stores: cards of places, each blank or held, with a meter of its reads.

use crate::field::Field;
use std::marker::PhantomData;

pub const MAX_ROWS: usize = 32;
pub const MAX_NODES: usize = 93;

/// A row of a node.
#[derive(Clone, Copy, Debug, Default, PartialEq, Eq)]
pub struct Place {
    pub row: usize,
    pub node: usize,
}

/// Why a store declines a place.
#[derive(Clone, Copy, Debug, PartialEq, Eq)]
pub enum Cause {
    OffStore,
    Blank,
    Worn,
}

/// A store's decline: the place, and why.
#[derive(Clone, Copy, Debug, PartialEq, Eq)]
pub struct StoreFault {
    pub place: Place,
    pub cause: Cause,
}

/// Rows or nodes out of bounds.
#[derive(Clone, Copy, Debug, PartialEq, Eq)]
pub struct Unfit;

pub trait Store<F: Field> {
    const LIFE: u16;

    fn rows(&self) -> usize;
    fn nodes(&self) -> usize;

    /// The symbol and the meter of a place on the store.
    fn content(&self, place: Place) -> (Option<F>, u16);

    /// Replaces the symbol of a place on the store; its meter stays.
    fn put_symbol(&mut self, place: Place, symbol: F);

    /// Raises the meter of a place on the store by one.
    fn raise_meter(&mut self, place: Place);

    /// Sets a node's meters to 0, and blanks it if asked to.
    fn reset_node(&mut self, node: usize, blank: bool);

    fn on_store(&self, place: Place) -> Result<(), StoreFault> {
        if place.row < self.rows() && place.node < self.nodes() {
            Ok(())
        } else {
            Err(StoreFault { place, cause: Cause::OffStore })
        }
    }

    /// The symbol a read would answer, without reading.
    fn probe(&self, place: Place) -> Result<F, StoreFault> {
        self.on_store(place)?;
        match self.content(place) {
            (None, _) => Err(StoreFault { place, cause: Cause::Blank }),
            (Some(_), meter) if meter == Self::LIFE => {
                Err(StoreFault { place, cause: Cause::Worn })
            }
            (Some(symbol), _) => Ok(symbol),
        }
    }

    fn read(&mut self, place: Place) -> Result<F, StoreFault> {
        let symbol = self.probe(place)?;
        self.raise_meter(place);
        Ok(symbol)
    }

    fn meter(&self, place: Place) -> Result<u16, StoreFault> {
        self.on_store(place)?;
        Ok(self.content(place).1)
    }

    fn write(&mut self, place: Place, symbol: F) -> Result<(), StoreFault> {
        self.on_store(place)?;
        self.put_symbol(place, symbol);
        Ok(())
    }

    /// Blanks a node and sets its meters to 0; answers their former sum.
    fn clear(&mut self, node: usize) -> Result<usize, StoreFault> {
        let sum = self.metered(node)?;
        self.reset_node(node, true);
        Ok(sum)
    }

    /// Sets a node's meters to 0; answers their former sum.
    fn refresh(&mut self, node: usize) -> Result<usize, StoreFault> {
        let sum = self.metered(node)?;
        self.reset_node(node, false);
        Ok(sum)
    }

    /// The sum of a node's meters.
    fn metered(&self, node: usize) -> Result<usize, StoreFault> {
        self.on_store(Place { row: 0, node })?;
        Ok((0..self.rows()).map(|row| usize::from(self.content(Place { row, node }).1)).sum())
    }
}

fn check(rows: usize, nodes: usize) -> Result<(), Unfit> {
    if (1..=MAX_ROWS).contains(&rows) && (1..=MAX_NODES).contains(&nodes) {
        Ok(())
    } else {
        Err(Unfit)
    }
}

/// The memory bank: a record of symbol and meter for each place.
pub struct Bank<F> {
    rows: usize,
    nodes: usize,
    records: Vec<(Option<F>, u16)>,
}

impl<F: Field> Bank<F> {
    pub fn new(rows: usize, nodes: usize) -> Result<Self, Unfit> {
        check(rows, nodes)?;
        Ok(Bank { rows, nodes, records: vec![(None, 0); rows * nodes] })
    }

    fn index(&self, place: Place) -> usize {
        self.rows * place.node + place.row
    }
}

impl<F: Field> Store<F> for Bank<F> {
    const LIFE: u16 = 1000;

    fn rows(&self) -> usize {
        self.rows
    }

    fn nodes(&self) -> usize {
        self.nodes
    }

    fn content(&self, place: Place) -> (Option<F>, u16) {
        self.records[self.index(place)]
    }

    fn put_symbol(&mut self, place: Place, symbol: F) {
        let index = self.index(place);
        self.records[index].0 = Some(symbol);
    }

    fn raise_meter(&mut self, place: Place) {
        let index = self.index(place);
        self.records[index].1 += 1;
    }

    fn reset_node(&mut self, node: usize, blank: bool) {
        let start = self.rows * node;
        for record in &mut self.records[start..start + self.rows] {
            record.1 = 0;
            if blank {
                record.0 = None;
            }
        }
    }
}

/// The card image: mark, number high byte, number low byte and meter for each
/// place; a node's places are one run, row after row.
pub struct CardImage<F> {
    rows: usize,
    nodes: usize,
    bytes: Vec<u8>,
    field: PhantomData<F>,
}

const PLACE_BYTES: usize = 4;

impl<F: Field> CardImage<F> {
    pub fn new(rows: usize, nodes: usize) -> Result<Self, Unfit> {
        Self::open(rows, nodes, vec![0; PLACE_BYTES * rows * nodes])
    }

    /// Takes an image as it is.
    pub fn open(rows: usize, nodes: usize, bytes: Vec<u8>) -> Result<Self, Unfit> {
        check(rows, nodes)?;
        if bytes.len() < PLACE_BYTES * rows * nodes {
            return Err(Unfit);
        }
        Ok(CardImage { rows, nodes, bytes, field: PhantomData })
    }

    pub fn bytes(&self) -> &[u8] {
        &self.bytes
    }

    fn index(&self, place: Place) -> usize {
        PLACE_BYTES * (self.rows * place.node + place.row)
    }
}

impl<F: Field> Store<F> for CardImage<F> {
    const LIFE: u16 = 250;

    fn rows(&self) -> usize {
        self.rows
    }

    fn nodes(&self) -> usize {
        self.nodes
    }

    /// A mark other than 1, or a number without a symbol, counts as blank; a
    /// meter above the life counts as the life.
    fn content(&self, place: Place) -> (Option<F>, u16) {
        let index = self.index(place);
        let [mark, high, low, meter] = self.bytes[index..index + PLACE_BYTES] else {
            unreachable!("a place has four bytes")
        };
        let symbol = if mark == 1 { F::symbol(u16::from_be_bytes([high, low])) } else { None };
        (symbol, u16::from(meter).min(<Self as Store<F>>::LIFE))
    }

    fn put_symbol(&mut self, place: Place, symbol: F) {
        let index = self.index(place);
        let [high, low] = symbol.number().to_be_bytes();
        self.bytes[index..index + 3].copy_from_slice(&[1, high, low]);
    }

    fn raise_meter(&mut self, place: Place) {
        let index = self.index(place);
        self.bytes[index + 3] += 1;
    }

    fn reset_node(&mut self, node: usize, blank: bool) {
        let start = PLACE_BYTES * self.rows * node;
        let run = &mut self.bytes[start..start + PLACE_BYTES * self.rows];
        if blank {
            run.fill(0);
        } else {
            for bytes in run.chunks_exact_mut(PLACE_BYTES) {
                bytes[3] = 0;
            }
        }
    }
}

#[cfg(test)]
mod tests {
    use super::*;
    use crate::field::{Byte, Decimal};

    fn place(row: usize, node: usize) -> Place {
        Place { row, node }
    }

    fn wears_out<S: Store<Byte>>(mut store: S) {
        let (here, off) = (place(1, 2), place(2, 0));
        let fault = |place, cause| Err(StoreFault { place, cause });
        assert_eq!(store.read(here), fault(here, Cause::Blank));
        assert_eq!(store.read(off), fault(off, Cause::OffStore));
        store.write(here, Byte(77)).unwrap();
        for _ in 0..S::LIFE {
            assert_eq!(store.read(here), Ok(Byte(77)));
        }
        assert_eq!(store.read(here), fault(here, Cause::Worn));
        assert_eq!(store.probe(here), fault(here, Cause::Worn));
        assert_eq!(store.meter(here), Ok(S::LIFE));
        assert_eq!(store.refresh(2), Ok(usize::from(S::LIFE)));
        assert_eq!(store.read(here), Ok(Byte(77)));
        assert_eq!(store.clear(2), Ok(1));
        assert_eq!(store.probe(here), fault(here, Cause::Blank));
        assert_eq!(store.clear(3), Err(StoreFault { place: place(0, 3), cause: Cause::OffStore }));
    }

    #[test]
    fn stores_wear_out() {
        wears_out(Bank::new(2, 3).unwrap());
        wears_out(CardImage::new(2, 3).unwrap());
    }

    #[test]
    fn bounds() {
        for (rows, nodes) in [(0, 1), (33, 1), (1, 0), (1, 94)] {
            assert!(Bank::<Byte>::new(rows, nodes).is_err());
            assert!(CardImage::<Byte>::new(rows, nodes).is_err());
        }
        assert!(Bank::<Byte>::new(32, 93).is_ok());
        assert!(CardImage::<Byte>::open(32, 93, vec![0; 4 * 32 * 93 - 1]).is_err());
    }

    #[test]
    fn image_layout() {
        let mut image = CardImage::<Decimal>::new(2, 2).unwrap();
        image.write(place(1, 1), Decimal::symbol(10).unwrap()).unwrap();
        image.read(place(1, 1)).unwrap();
        assert_eq!(image.bytes(), [0, 0, 0, 0, 0, 0, 0, 0, 0, 0, 0, 0, 1, 0, 10, 1]);
    }

    /// A wrong mark or a number without a symbol is blank, a meter above 250 worn.
    #[test]
    fn image_bytes_that_no_call_writes() {
        let bytes = vec![2, 0, 5, 0, 1, 0, 11, 0, 1, 1, 5, 0, 1, 0, 5, 255];
        let image = CardImage::<Decimal>::open(4, 1, bytes).unwrap();
        for row in 0..3 {
            assert_eq!(image.probe(place(row, 0)).unwrap_err().cause, Cause::Blank);
        }
        assert_eq!(image.probe(place(3, 0)).unwrap_err().cause, Cause::Worn);
        assert_eq!(image.metered(0), Ok(250));
    }
}
