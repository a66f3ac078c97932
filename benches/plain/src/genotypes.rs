//! The genotypes that ever lived, and those of them that were saved.

use std::collections::HashMap;
use std::rc::Rc;

/// What a daughter cost her mother.
#[derive(Clone, Copy)]
pub struct Effort {
    pub ran: u64,
    pub moved: u64,
}

pub struct Genotype {
    pub code: Rc<[u8]>,
    pub parent: Option<usize>,
    pub first_quantum: u64,
    pub individuals: u64,
    pub efforts: [Option<Effort>; 2],
}

pub struct Saving {
    pub genotype: usize,
    pub quantum: u64,
    pub efforts: [Option<Effort>; 2],
}

/// Genotypes are named by their place in `all`.
pub struct Genotypes {
    pub all: Vec<Genotype>,
    pub savings: Vec<Saving>,
    places: HashMap<Rc<[u8]>, usize>,
    save_at: u64,
}

impl Genotypes {
    pub fn new(save_at: u32) -> Genotypes {
        Genotypes {
            all: Vec::new(),
            savings: Vec::new(),
            places: HashMap::new(),
            save_at: u64::from(save_at),
        }
    }

    /// Counts one more individual with this code, and gives its genotype.
    pub fn count(&mut self, code: &[u8], parent: Option<usize>, quantum: u64) -> usize {
        let place = match self.places.get(code) {
            Some(place) => *place,
            None => self.add(code.into(), parent, quantum),
        };
        let genotype = &mut self.all[place];
        genotype.individuals += 1;
        if genotype.individuals == self.save_at {
            self.savings.push(Saving {
                genotype: place,
                quantum,
                efforts: genotype.efforts,
            });
        }
        place
    }

    fn add(&mut self, code: Rc<[u8]>, parent: Option<usize>, first_quantum: u64) -> usize {
        let place = self.all.len();
        self.places.insert(code.clone(), place);
        self.all.push(Genotype {
            code,
            parent,
            first_quantum,
            individuals: 0,
            efforts: [None; 2],
        });
        place
    }

    /// Notes the effort of a mother's first or second daughter, if none was noted yet.
    pub fn note(&mut self, genotype: usize, daughters: u64, effort: Effort) {
        if let Some(noted) = self.all[genotype].efforts.get_mut(daughters as usize - 1) {
            noted.get_or_insert(effort);
        }
    }
}
