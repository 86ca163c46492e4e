//! The full disjunction by its definition, for small tables: every choice of at most one row per table is tried.
//! Nothing of the stream's rule is used.
use crate::make::Tables;
use crate::rule::Key;

/// What a set's row numbers are the digits of: one number, lowest table first, whose lowest 60 bits are the first word of its key.
/// Five digits fill them.
const DIGIT: u128 = 4096;
const FIRST_WORD: u128 = 1 << 60;

/// A tuple: for each attribute below m nothing, a null, or a value.
/// Nothing means that the attribute is not in the relation's scheme.
type Tuple = Vec<Option<Option<u64>>>;

/// The relations of a set of tables: their tuples, and the attributes of each.
/// Tuple t of relation r has row number t + 1.
pub struct Relations {
    attributes: usize,
    schemes: Vec<Vec<usize>>,
    tuples: Vec<Vec<Tuple>>,
}

impl Relations {
    /// Unpacks tables.
    /// Their catalogue is good.
    pub fn of(tables: &Tables) -> Relations {
        let attributes = tables.catalogue.m as usize;
        let mut cells = tables.cells.iter();
        let mut relations = Relations { attributes, schemes: Vec::new(), tuples: Vec::new() };
        for table in 0..tables.catalogue.n as usize {
            let scheme: Vec<usize> = (0..attributes).filter(|a| tables.catalogue.schemes[table] & 1 << a != 0).collect();
            let mut tuples = Vec::new();
            for _ in 0..tables.catalogue.rows[table] {
                let mut tuple = vec![None; attributes];
                for &attribute in &scheme {
                    let code = *cells.next().expect("the cells end early");
                    tuple[attribute] = Some(code.checked_sub(1));
                }
                tuples.push(tuple);
            }
            relations.schemes.push(scheme);
            relations.tuples.push(tuples);
        }
        relations
    }

    /// Are two tuples of different relations join consistent?
    /// They are equal and nonnull on every common attribute.
    fn join_consistent(&self, one: &Tuple, other: &Tuple) -> bool {
        one.iter().zip(other).all(|pair| match pair {
            (Some(Some(a)), Some(Some(b))) => a == b,
            (Some(_), Some(_)) => false,
            _ => true,
        })
    }

    /// Is a set of relations connected in the scheme graph?
    /// Marks spread along edges until none is new.
    fn connected(&self, relations: &[usize]) -> bool {
        let mut reached = vec![relations[0]];
        let mut next = 0;
        while next < reached.len() {
            for &relation in relations {
                let edge = self.schemes[relation].iter().any(|a| self.schemes[reached[next]].contains(a));
                if edge && !reached.contains(&relation) {
                    reached.push(relation);
                }
            }
            next += 1;
        }
        reached.len() == relations.len()
    }

    /// Is a choice of row numbers (0 for none) nonempty, join consistent and connected?
    /// This is JCC of the source document.
    fn jcc(&self, choice: &[usize]) -> bool {
        let chosen: Vec<usize> = (0..choice.len()).filter(|&r| choice[r] != 0).collect();
        let tuple = |r: usize| &self.tuples[r][choice[r] - 1];
        !chosen.is_empty()
            && self.connected(&chosen)
            && chosen.iter().all(|&a| chosen.iter().all(|&b| a == b || self.join_consistent(tuple(a), tuple(b))))
    }

    /// All maximal sets as keys, in rising order: the second word counts first.
    /// A set is maximal if no other join-consistent connected set properly contains it.
    pub fn maximal(&self) -> Vec<Key> {
        let mut sets: Vec<Vec<usize>> = Vec::new();
        let mut choice = vec![0; self.tuples.len()];
        loop {
            if self.jcc(&choice) {
                sets.push(choice.clone());
            }
            let Some(place) = (0..choice.len()).find(|&r| choice[r] < self.tuples[r].len()) else {
                break;
            };
            choice[place] += 1;
            choice[..place].fill(0);
        }
        let inside = |small: &[usize], large: &[usize]| small != large && small.iter().zip(large).all(|(&s, &l)| s == 0 || s == l);
        let mut numbers: Vec<u128> = sets
            .iter()
            .filter(|set| !sets.iter().any(|larger| inside(set, larger)))
            .map(|set| set.iter().rev().fold(0, |number, &row| number * DIGIT + row as u128))
            .collect();
        numbers.sort_unstable();
        numbers.iter().map(|&number| Key::of((number % FIRST_WORD) as u64, (number / FIRST_WORD) as u64)).collect()
    }

    /// The padded row of a set, as codes: the joined tuple with nulls for all other attributes.
    /// This is embed of the source document.
    pub fn embed(&self, key: Key) -> Vec<u64> {
        let mut embedded = vec![0; self.attributes];
        let mut number = u128::from(key.high) * FIRST_WORD + u128::from(key.low);
        for relation in 0..self.tuples.len() {
            let row = (number % DIGIT) as usize;
            number /= DIGIT;
            if row == 0 {
                continue;
            }
            for (attribute, cell) in self.tuples[relation][row - 1].iter().enumerate() {
                if let Some(Some(value)) = cell {
                    embedded[attribute] = value + 1;
                }
            }
        }
        embedded
    }
}
