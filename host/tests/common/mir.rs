//! Which function calls which, off the code of libraries as the prover takes it and the compiler gets it.
//!
//! A call there names its function, or a method behind a bound. What stands behind a function's bounds is passed to it: an impl, by its
//! name, with what that impl's own bounds need. A closure has an impl as well, of the trait of its kind, and so has a function that is
//! passed on as a value. So from a function whose own bounds are known every call is known.

use super::json::{Json, Reader};
use std::collections::{BTreeMap, BTreeSet};
use std::fmt::{self, Display, Formatter};

/// Each function, and those that it calls.
pub type Calls = BTreeMap<String, BTreeSet<String>>;

/// What stands behind a bound.
#[derive(Clone, PartialEq, Eq, PartialOrd, Ord)]
enum Known {
    Impl(String, Vec<Known>),
    /// Any impl of this trait.
    Any(String),
}

impl Display for Known {
    fn fmt(&self, f: &mut Formatter) -> fmt::Result {
        match self {
            Self::Impl(name, more) => f.write_str(&with(name, more)),
            Self::Any(of) => write!(f, "any:{of}"),
        }
    }
}

/// A name with what is passed to it.
fn with(name: &str, known: &[Known]) -> String {
    let known: Vec<_> = known.iter().map(Known::to_string).collect();
    match &known[..] {
        [] => name.to_owned(),
        _ => format!("{name}<{}>", known.join(",")),
    }
}

/// What a function's text passes for a bound.
#[derive(Clone)]
enum Passed {
    /// What stands behind this bound of the function's own.
    Own(usize),
    Impl(String, Vec<Passed>),
}

/// A call in a function's text.
#[derive(Clone)]
enum Call {
    Function(String, Vec<Passed>),
    Method(Passed, usize, Vec<Passed>),
    /// By an address, of a C function, or in a thread.
    Other(String),
}

#[derive(Clone)]
struct Function {
    /// The traits of its bounds.
    bounds: Vec<String>,
    /// Its place, if it is a method of an impl.
    method: Option<usize>,
    calls: Vec<Call>,
}

/// The functions and impls of some libraries.
#[derive(Clone, Default)]
pub struct Code {
    functions: BTreeMap<String, Function>,
    /// The methods of the impls that are passed on.
    impls: BTreeMap<String, Vec<String>>,
    /// The methods that traits declare, by trait and place.
    declared: BTreeMap<(String, usize), String>,
    /// The libraries that are looked at, of all that are there.
    own: BTreeSet<String>,
}

/// The traits of some bounds.
fn traits(bounds: &Json) -> Vec<String> {
    let of = |bound: &Json| bound.at("of").text().to_owned();
    bounds.list().iter().map(of).collect()
}

fn passed(json: &Json) -> Passed {
    match json.fields() {
        [(kind, place)] if kind == "Given" => Passed::Own(place.number()),
        [(kind, it)] if kind == "Impl" => {
            let it = it.list();
            Passed::Impl(it[0].text().to_owned(), all_passed(&it[2]))
        }
        _ => panic!("neither a bound nor an impl is passed"),
    }
}

fn all_passed(json: &Json) -> Vec<Passed> {
    json.list().iter().map(passed).collect()
}

/// A function that is named, with what is passed to it, or a method behind a bound.
fn named(kind: &str, json: &Json) -> Option<Call> {
    match kind {
        "Fn" => {
            let it = json.list();
            let name = it[0].text().to_owned();
            Some(Call::Function(name, all_passed(it[1].at("dicts"))))
        }
        "Method" => {
            let it = json.list();
            let more = all_passed(it[2].at("dicts"));
            Some(Call::Method(passed(&it[0]), it[1].number(), more))
        }
        _ => None,
    }
}

/// Adds the calls of a text. A function that is named in another place than a call counts as called.
fn add_calls(json: &Json, calls: &mut Vec<Call>) {
    if let Json::List(list) = json {
        list.iter().for_each(|json| add_calls(json, calls));
    }
    for (name, json) in json.fields() {
        let called = match json {
            Json::List(list) if name == "Call" => list[0].fields(),
            _ => &[],
        };
        let other = match called {
            [(kind, _)] if ["Fn", "Method", "Prim"].contains(&&kind[..]) => None,
            [(kind, _)] => Some(kind.clone()),
            // A call whose function is not told.
            _ if name.contains("Call") && called.is_empty() => Some(name.clone()),
            _ => (name == "Foreign").then(|| name.clone()),
        };
        calls.extend(other.map(Call::Other));
        match named(name, json) {
            Some(call) => calls.push(call),
            None => add_calls(json, calls),
        }
    }
}

impl Code {
    /// Adds a library, off its MIR, a list of `["NAME",{..}]`. It is one of those that are looked at, or one of the kit.
    pub fn add(&mut self, library: &str, mir: &str, own: bool) {
        if own {
            self.own.insert(library.to_owned());
        }
        let mut reader = Reader::new(mir);
        reader.needs('[');
        while !reader.takes(']') {
            let pair = reader.value();
            let (name, text) = (pair.list()[0].text(), &pair.list()[1]);
            let generics = text.at("generics");
            for it in generics.at("impls").list() {
                let methods = it.at("methods").list().iter();
                let methods = methods.map(|name| name.text().to_owned()).collect();
                let name = it.at("name").text().to_owned();
                self.impls.insert(name, methods);
            }
            let mut method = None;
            for (kind, it) in generics.at("method_of").fields() {
                let (of, place) = (it.list()[0].text(), it.list()[1].number());
                if kind == "Impl" {
                    method = Some(place);
                } else {
                    let name = name.strip_suffix("+decl").unwrap_or(name);
                    let name = name.rsplit("::").next().unwrap().to_owned();
                    self.declared.insert((of.to_owned(), place), name);
                }
            }
            let mut calls = Vec::new();
            add_calls(text.at("body"), &mut calls);
            let bounds = traits(generics.at("bounds"));
            let function = Function {
                bounds,
                method,
                calls,
            };
            let twice = self.functions.insert(name.to_owned(), function);
            assert!(twice.is_none(), "{name} stands there twice");
            reader.takes(',');
        }
        assert!(reader.is_at_end(), "{library}: a list of functions");
    }

    /// The names of the functions of a library.
    pub fn names(&self, library: &str) -> impl Iterator<Item = &str> {
        let own = format!("{library}::");
        let names = self.functions.keys().map(String::as_str);
        names.filter(move |name| name.starts_with(&own))
    }

    fn is_own(&self, name: &str) -> bool {
        let (library, _) = name.split_once("::").expect("a path");
        self.own.contains(library)
    }

    /// How a function is called in the graph: one that is looked at by its name, whatever is passed to it, one of the kit with that.
    fn label(&self, (name, known): &(String, Vec<Known>)) -> String {
        if self.is_own(name) {
            return name.clone();
        }
        with(name, known)
    }

    fn known(&self, passed: &Passed, own: &[Known]) -> Known {
        match passed {
            Passed::Own(place) => own[*place].clone(),
            Passed::Impl(name, more) => Known::Impl(name.clone(), self.all_known(more, own)),
        }
    }

    fn all_known(&self, passed: &[Passed], own: &[Known]) -> Vec<Known> {
        passed.iter().map(|it| self.known(it, own)).collect()
    }

    fn any(bounds: &[String]) -> Vec<Known> {
        bounds.iter().cloned().map(Known::Any).collect()
    }

    /// A method of what stands behind a bound, with what that impl was given.
    fn methods(&self, known: &Known, place: usize) -> Vec<(String, Vec<Known>)> {
        match known {
            Known::Impl(name, more) => {
                let method = self.impls[name][place].clone();
                vec![(method, more.clone())]
            }
            // Of the kit's traits other impls stand in no library: a call through one is seen where it is passed on.
            Known::Any(of) if !self.is_own(of) => Vec::new(),
            // Each impl's method of that name and place.
            Known::Any(of) => {
                let end = format!("::{}", self.declared[&(of.clone(), place)]);
                let all = self.functions.iter();
                let methods = all.filter(|(name, it)| {
                    self.is_own(name) && it.method == Some(place) && name.ends_with(&end)
                });
                let method =
                    |(name, it): (&String, &Function)| (name.clone(), Self::any(&it.bounds));
                methods.map(method).collect()
            }
        }
    }

    /// The functions that one calls, where this stands behind its bounds.
    fn called(&self, name: &str, own: &[Known]) -> Vec<(String, Vec<Known>)> {
        let function = self.functions.get(name);
        let function = function.unwrap_or_else(|| panic!("{name} is not defined"));
        assert_eq!(function.bounds.len(), own.len(), "bounds of {name}");
        let mut found = Vec::new();
        for call in &function.calls {
            match call {
                Call::Function(name, passed) => {
                    found.push((name.clone(), self.all_known(passed, own)));
                }
                Call::Method(passed, place, more) => {
                    let more = self.all_known(more, own);
                    for (name, mut known) in self.methods(&self.known(passed, own), *place) {
                        known.extend(more.iter().cloned());
                        found.push((name, known));
                    }
                }
                Call::Other(kind) => panic!("{name}: a call that names no function: {kind}"),
            }
        }
        found
    }

    /// The calls of all functions that are looked at, and of those of the kit that they lead to. Where no caller is known, any impl of a
    /// trait of these libraries may stand behind a bound.
    pub fn calls(&self) -> Calls {
        let own = self.functions.iter().filter(|(name, _)| self.is_own(name));
        let start = |(name, it): (&String, &Function)| (name.clone(), Self::any(&it.bounds));
        let mut todo: Vec<_> = own.map(start).collect();
        let mut done = BTreeSet::new();
        let mut calls = Calls::new();
        while let Some(caller) = todo.pop() {
            if !done.insert(caller.clone()) {
                continue;
            }
            // Else what is passed on would grow without an end, from a function to itself.
            assert!(done.len() < 100_000, "too many: {}", self.label(&caller));
            let found = self.called(&caller.0, &caller.1);
            let labels = found.iter().map(|it| self.label(it));
            calls.entry(self.label(&caller)).or_default().extend(labels);
            todo.extend(found);
        }
        calls
    }
}
