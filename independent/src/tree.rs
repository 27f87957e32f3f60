//! Terms as trees, for the generator and the self-check; the machine does not know them.

/// What stands at the front of an application.
#[derive(Clone, Copy, Debug, PartialEq, Eq, PartialOrd, Ord)]
pub enum Head {
    Constant(u32),
    Variable(u32),
    Hole(u32),
}

/// A term: variable numbers count binders from the innermost, past them context entries.
#[derive(Clone, Debug, PartialEq, Eq)]
pub enum Tree {
    Lambda(Box<Tree>),
    Apply(Head, Vec<Tree>),
}

impl Tree {
    pub fn lambda(body: Tree) -> Tree {
        Tree::Lambda(Box::new(body))
    }

    pub fn variable(number: u32) -> Tree {
        Tree::Apply(Head::Variable(number), Vec::new())
    }

    /// A hole applied to bare variables.
    pub fn occurrence(hole: u32, variables: &[u32]) -> Tree {
        Tree::Apply(Head::Hole(hole), variables.iter().map(|&v| Tree::variable(v)).collect())
    }

    /// How many lambdas and heads the term has.
    pub fn size(&self) -> usize {
        match self {
            Tree::Lambda(body) => 1 + body.size(),
            Tree::Apply(_, arguments) => 1 + arguments.iter().map(Tree::size).sum::<usize>(),
        }
    }

    /// The number of a bare variable.
    pub fn as_bare_variable(&self) -> Option<u32> {
        match self {
            Tree::Apply(Head::Variable(number), arguments) if arguments.is_empty() => Some(*number),
            _ => None,
        }
    }

    /// Each variable free in the term goes where `to` says; bound ones stay.
    /// None as soon as one has nowhere to go.
    pub fn renamed(&self, to: &dyn Fn(u32) -> Option<u32>) -> Option<Tree> {
        self.renamed_below(to, 0)
    }

    fn renamed_below(&self, to: &dyn Fn(u32) -> Option<u32>, bound: u32) -> Option<Tree> {
        match self {
            Tree::Lambda(body) => Some(Tree::lambda(body.renamed_below(to, bound + 1)?)),
            Tree::Apply(head, arguments) => {
                let head = match *head {
                    Head::Variable(v) if v >= bound => Head::Variable(to(v - bound)? + bound),
                    other => other,
                };
                let renamed = arguments.iter().map(|argument| argument.renamed_below(to, bound));
                Some(Tree::Apply(head, renamed.collect::<Option<Vec<Tree>>>()?))
            }
        }
    }

    /// A hole's term with its context entries replaced by the variables it is applied to.
    pub fn applied_to(&self, variables: &[u32]) -> Option<Tree> {
        self.renamed(&|entry| variables.get(entry as usize).copied())
    }

    /// The holes of the term, each once, in order of first meeting.
    pub fn collect_holes(&self, found: &mut Vec<u32>) {
        match self {
            Tree::Lambda(body) => body.collect_holes(found),
            Tree::Apply(head, arguments) => {
                if let Head::Hole(hole) = *head {
                    if !found.contains(&hole) {
                        found.push(hole);
                    }
                }
                arguments.iter().for_each(|argument| argument.collect_holes(found));
            }
        }
    }
}

/// The numbers of arguments that are all bare variables.
pub fn bare_variables(arguments: &[Tree]) -> Option<Vec<u32>> {
    arguments.iter().map(Tree::as_bare_variable).collect()
}
