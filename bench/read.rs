//! The yardstick of bench/read.py: a reader in plain Rust of typed STRIPS with numbers in the initial state, which looks up
//! each name, counts each argument and compares each type, and prints the kind of what it has read.
#![allow(dead_code)]

mod lexer;

use lexer::{Kind, Sexp, brackets};
use std::collections::HashMap;

type Name = Vec<u8>;

/// Types with their parents, objects with their types, and the types of the arguments of predicates and functions.
#[derive(Default)]
struct Names {
    types: HashMap<Name, Name>,
    objects: HashMap<Name, Name>,
    predicates: HashMap<Name, Vec<Name>>,
    functions: HashMap<Name, Vec<Name>>,
}

enum Term {
    Object(Name),
    Variable(Name),
}

struct Atom {
    predicate: Name,
    args: Vec<Term>,
    holds: bool,
}

struct Action {
    params: Vec<(Name, Name)>,
    pre: Vec<Atom>,
    effect: Vec<Atom>,
}

#[derive(Default)]
struct Problem {
    names: Names,
    actions: Vec<Action>,
    atoms: Vec<(Name, Vec<Name>)>,
    numbers: Vec<(Name, Vec<Name>, i64, i64)>,
    goal: Vec<Atom>,
}

impl Names {
    fn is_type(&self, name: &[u8]) -> bool {
        name == b"object" || self.types.contains_key(name)
    }

    fn is_under<'a>(&'a self, mut of: &'a Name, due: &Name) -> bool {
        while of != due && due != b"object" {
            match self.types.get(of) {
                Some(parent) => of = parent,
                None => return false,
            }
        }
        true
    }

    fn term(&self, scope: &[(Name, Name)], raw: &Sexp, due: &Name) -> Option<Term> {
        let Sexp::Leaf(token) = raw else { return None };
        let (term, of) = match &token.kind {
            Kind::Word(name) => (Term::Object(name.clone()), self.objects.get(name)?),
            Kind::Variable(name) => (Term::Variable(name.clone()), &scope.iter().find(|entry| &entry.0 == name)?.1),
            _ => return None,
        };
        self.is_under(of, due).then_some(term)
    }

    fn atom(&self, scope: &[(Name, Name)], raw: &Sexp) -> Option<Atom> {
        let Sexp::Group(_, parts) = raw else { return None };
        let head = word(parts.first()?)?;
        if head == b"not" {
            let atom = self.atom(scope, parts.get(1)?)?;
            return Some(Atom { holds: false, ..atom });
        }
        let due = self.predicates.get(head)?;
        if due.len() + 1 != parts.len() {
            return None;
        }
        let args = parts[1..].iter().zip(due).map(|(arg, of)| self.term(scope, arg, of)).collect::<Option<_>>()?;
        Some(Atom { predicate: head.clone(), args, holds: true })
    }

    fn atoms(&self, scope: &[(Name, Name)], raw: &Sexp) -> Option<Vec<Atom>> {
        match raw {
            Sexp::Group(_, parts) if parts.first().and_then(word).is_some_and(|head| head == b"and") =>
                parts[1..].iter().map(|part| self.atom(scope, part)).collect(),
            _ => Some(vec![self.atom(scope, raw)?]),
        }
    }

    fn ground(&self, raw: &Sexp, declared: &HashMap<Name, Vec<Name>>) -> Option<(Name, Vec<Name>)> {
        let Sexp::Group(_, parts) = raw else { return None };
        let head = word(parts.first()?)?;
        let due = declared.get(head)?;
        if due.len() + 1 != parts.len() {
            return None;
        }
        let args = parts[1..].iter().zip(due).map(|(arg, of)| {
            let name = word(arg)?;
            self.is_under(self.objects.get(name)?, of).then(|| name.clone())
        });
        Some((head.clone(), args.collect::<Option<_>>()?))
    }
}

fn word(raw: &Sexp) -> Option<&Name> {
    match raw {
        Sexp::Leaf(token) => match &token.kind {
            Kind::Word(name) | Kind::Variable(name) | Kind::Keyword(name) => Some(name),
            _ => None,
        },
        Sexp::Group(..) => None,
    }
}

/// A typed list, in which a name without a type has the type `object`.
fn typed(items: &[Sexp]) -> Option<Vec<(Name, Name)>> {
    let (mut list, mut begin, mut at): (Vec<(Name, Name)>, _, _) = (Vec::new(), 0, 0);
    while at < items.len() {
        if matches!(&items[at], Sexp::Leaf(token) if matches!(token.kind, Kind::Sign(b'-'))) {
            let of = word(items.get(at + 1)?)?;
            list[begin..].iter_mut().for_each(|entry| entry.1 = of.clone());
            begin = list.len();
            at += 2;
        } else {
            list.push((word(&items[at])?.clone(), b"object".to_vec()));
            at += 1;
        }
    }
    Some(list)
}

fn declared(names: &Names, parts: &[Sexp], list: &mut HashMap<Name, Vec<Name>>) -> Option<()> {
    for part in parts {
        let Sexp::Group(_, items) = part else { return None };
        let args: Vec<Name> = typed(&items[1..])?.into_iter().map(|(_, of)| of).collect();
        if !args.iter().all(|of| names.is_type(of)) || list.insert(word(items.first()?)?.clone(), args).is_some() {
            return None;
        }
    }
    Some(())
}

fn add_objects(names: &mut Names, items: &[Sexp]) -> Option<()> {
    for (name, of) in typed(items)? {
        if !names.is_type(&of) || names.objects.insert(name, of.clone()).is_some_and(|first| first != of) {
            return None;
        }
    }
    Some(())
}

fn action(names: &Names, parts: &[Sexp]) -> Option<Action> {
    let mut action = Action { params: Vec::new(), pre: Vec::new(), effect: Vec::new() };
    for pair in parts[1..].chunks(2) {
        match (word(&pair[0])?.as_slice(), pair.get(1)?) {
            (b"parameters", Sexp::Group(_, items)) => action.params = typed(items)?,
            (b"precondition", raw) => action.pre = names.atoms(&action.params, raw)?,
            (b"effect", raw) => action.effect = names.atoms(&action.params, raw)?,
            _ => return None,
        }
    }
    Some(action)
}

fn value(raw: &Sexp) -> Option<(i64, i64)> {
    match raw {
        Sexp::Leaf(token) => match token.kind {
            Kind::Number(whole, parts) => Some((whole, parts)),
            _ => None,
        },
        Sexp::Group(..) => None,
    }
}

fn section(problem: &mut Problem, raw: &Sexp) -> Option<()> {
    let Sexp::Group(_, parts) = raw else { return None };
    let items = &parts[1..];
    match word(parts.first()?)?.as_slice() {
        b"types" => problem.names.types = typed(items)?.into_iter().collect(),
        b"constants" | b"objects" => add_objects(&mut problem.names, items)?,
        b"predicates" => {
            let mut list = HashMap::new();
            declared(&problem.names, items, &mut list)?;
            problem.names.predicates = list;
        }
        b"functions" => {
            let mut list = HashMap::new();
            declared(&problem.names, items, &mut list)?;
            problem.names.functions = list;
        }
        b"action" => problem.actions.push(action(&problem.names, items)?),
        b"init" => init(problem, items)?,
        b"goal" => problem.goal = problem.names.atoms(&[], items.first()?)?,
        _ => {}
    }
    Some(())
}

fn init(problem: &mut Problem, items: &[Sexp]) -> Option<()> {
    for item in items {
        let Sexp::Group(_, parts) = item else { return None };
        if matches!(parts.first()?, Sexp::Leaf(token) if matches!(token.kind, Kind::Sign(b'='))) {
            let (name, args) = problem.names.ground(parts.get(1)?, &problem.names.functions)?;
            let (whole, of) = value(parts.get(2)?)?;
            problem.numbers.push((name, args, whole, of));
        } else {
            problem.atoms.push(problem.names.ground(item, &problem.names.predicates)?);
        }
    }
    Some(())
}

fn read(problem: &mut Problem, text: &[u8]) -> Option<()> {
    let trees = brackets(text)?;
    let Sexp::Group(_, parts) = trees.first()? else { return None };
    parts[1..].iter().try_for_each(|part| section(problem, part))
}

/// Whether an add and a delete of the action are of one predicate: enough for what is read here.
fn overlaps(action: &Action) -> bool {
    action.effect.iter().any(|add| add.holds && action.effect.iter().any(|delete| !delete.holds && delete.predicate == add.predicate))
}

fn main() {
    let words: Vec<String> = std::env::args().collect();
    let mut problem = Problem::default();
    for name in &words[2..] {
        read(&mut problem, &std::fs::read(name).unwrap()).unwrap();
    }
    let conditions = || problem.actions.iter().flat_map(|action| &action.pre).chain(&problem.goal);
    let features = [
        ("FLAT_TYPING", !problem.names.types.is_empty()),
        ("HIERARCHICAL_TYPING", problem.names.types.values().any(|parent| parent != b"object")),
        ("ACTION_PARAMETERS", problem.actions.iter().any(|action| !action.params.is_empty())),
        ("NEGATIVE_CONDITIONS", conditions().any(|atom| !atom.holds)),
        ("NUMERIC_FLUENTS", !problem.names.functions.is_empty()),
        ("EFFECT_OVERLAP", problem.actions.iter().any(overlaps)),
    ];
    features.iter().filter(|feature| feature.1).for_each(|feature| println!("{}", feature.0));
}
