//! The partial map from the variables met to places, as the walk carries it.

use std::rc::Rc;

/// Where a variable leads: a position of the context written for, or a lambda that the
/// walk has passed, counted from the outermost.
#[derive(Clone, Copy, Debug, PartialEq, Eq)]
pub enum Place {
    Context(u32),
    Lambda(u32),
}

/// Variables that have a place; at most 16 entries, one for each argument of a hole.
#[derive(Debug, Default)]
pub struct Map {
    entries: Vec<(u32, Place)>,
}

impl Map {
    /// Each argument variable leads to its position: from a hole's arguments to its context.
    pub fn to_positions(variables: &[u32]) -> Map {
        let entry = |(position, &variable): (usize, &u32)| (variable, Place::Context(position as u32));
        Map { entries: variables.iter().enumerate().map(entry).collect() }
    }

    /// Each position leads to an argument variable: from a hole's context to its arguments.
    pub fn to_variables(variables: &[u32]) -> Map {
        let entry = |(position, &variable): (usize, &u32)| (position as u32, Place::Context(variable));
        Map { entries: variables.iter().enumerate().map(entry).collect() }
    }

    /// Each position leads where the argument leads; an argument without a place is left out.
    pub fn follow(arguments: &[Option<Place>]) -> Map {
        let entry = |(position, place): (usize, &Option<Place>)| place.map(|p| (position as u32, p));
        Map { entries: arguments.iter().enumerate().filter_map(entry).collect() }
    }

    fn find(&self, variable: u32) -> Option<Place> {
        self.entries.iter().find(|entry| entry.0 == variable).map(|entry| entry.1)
    }
}

/// How a term is seen: a map for its own context, and the lambdas passed.
#[derive(Clone, Debug)]
pub struct View {
    map: Rc<Map>,
    /// Lambdas passed inside the present term: its variables below this number stay.
    own: u32,
    /// Lambdas passed since the start, solved holes' terms together.
    all: u32,
    /// Solved holes whose solutions were entered on the way.
    pub solved: u32,
}

impl View {
    pub fn new(map: Map) -> View {
        View { map: Rc::new(map), own: 0, all: 0, solved: 0 }
    }

    /// The view of a lambda's body.
    pub fn body(&self) -> View {
        View { own: self.own + 1, all: self.all + 1, ..self.clone() }
    }

    /// The view of a solved hole's solution, with the map that follows the arguments.
    pub fn below(&self, arguments: &[Option<Place>]) -> View {
        View { map: Rc::new(Map::follow(arguments)), own: 0, all: self.all, solved: self.solved + 1 }
    }

    /// The place of a variable of the present term.
    pub fn place(&self, variable: u32) -> Option<Place> {
        if variable < self.own {
            Some(Place::Lambda(self.all - 1 - variable))
        } else {
            self.map.find(variable - self.own)
        }
    }

    /// The variable number to write here for a place.
    pub fn number(&self, place: Place) -> u32 {
        match place {
            Place::Context(position) => position + self.all,
            Place::Lambda(level) => self.all - 1 - level,
        }
    }
}
