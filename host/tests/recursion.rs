//! No function calls itself, directly or through others (document 02, No. 4).
//!
//! Of a library, the functions for hosts among them, `tools/kit.py mir NAME` prints what is proved and compiled. A call in it names its
//! function, or a method behind a bound; what stands behind the bounds is passed on by callers, as `common/mir.rs` says. So the calls are
//! followed from each function of each library, through the kit's libraries too, and what is found is the whole graph of calls. It must
//! have no cycle. A function of these crates stands in it once, whatever is passed to it, one of the kit once for each list of impls that
//! it is called with, and where a library's own function is generic and no caller is known, any impl may stand behind its bound.
//!
//! Of a program the kit leaves no such thing, but it proves no cycle of calls without a measure, which stands in a folder of the cycle's
//! own, `proofs/+NAME/`. No crate may have one. For calls on the parts of a value whose type contains itself it needs no folder, so no
//! crate may have such a type. The kit's own libraries have cycles, in three modules; each of their functions from which a chain of calls
//! leads there has one of a few words in its path, and no source has one of these.
//!
//! So the machine code of each program is looked at as well, with what it has of the kit's library: by the names in it no function calls
//! itself either, and but for the C library's start no call, and no jump but by a table, goes by an address that is computed. (A call in the
//! last place may have become a loop there; that is left to the two rules above.)
//!
//! Where something has changed since it was proved, `tools/kit.py` has it proved first. Let no other `rt` work on the tree meanwhile.

#[path = "common/json.rs"]
mod json;
#[path = "common/mir.rs"]
mod mir;
#[path = "common/sources.rs"]
mod sources;

use mir::{Calls, Code};
use sources::{code, sources};
use std::collections::{BTreeMap, BTreeSet};
use std::fs;
use std::path::{Path, PathBuf};
use std::process::{Command, Output};
use std::sync::LazyLock;

/// What a command prints. It must succeed.
fn printed(output: Output) -> String {
    let said = String::from_utf8_lossy(&output.stderr);
    let text = String::from_utf8(output.stdout).unwrap();
    assert!(output.status.success(), "{text}{said}");
    text
}

fn mir_of(repository: &Path, name: &str) -> String {
    let mut tool = Command::new("tools/kit.py");
    tool.args(["mir", name]).current_dir(repository);
    printed(tool.output().expect("tools/kit.py, by python3"))
}

/// The functions of an MIR, a list of `["NAME",{"lifetimes":..}]`, each with its text.
fn definitions(mir: &str) -> Vec<(&str, &str)> {
    let pieces: Vec<_> = mir.split("\",{\"lifetimes\":").collect();
    let mut found = Vec::new();
    for pair in pieces.windows(2) {
        let (_, name) = pair[0].rsplit_once("[\"").unwrap();
        found.push((name, pair[1]));
    }
    found
}

/// The names behind such a mark.
fn named<'a>(text: &'a str, mark: &'a str) -> impl Iterator<Item = &'a str> {
    let pieces = text.split(mark).skip(1);
    pieces.map(|rest| rest.split('"').next().unwrap())
}

/// A cycle of calls, from a function back to itself, if there is one.
fn cycle(calls: &Calls) -> Option<Vec<String>> {
    for called in calls.values().flatten() {
        assert!(calls.contains_key(called), "{called} is not defined");
    }
    // Functions that call none but those taken away are taken away, as long as there are any.
    let mut left = calls.clone();
    loop {
        let ends = |called: &BTreeSet<String>| !called.iter().any(|name| left.contains_key(name));
        let Some((name, _)) = left.iter().find(|(_, called)| ends(called)) else {
            break;
        };
        let name = name.clone();
        left.remove(&name);
    }
    // Each that is left calls one that is left.
    let mut path = vec![left.keys().next()?.clone()];
    loop {
        let called = &left[path.last().unwrap()];
        let next = called.iter().find(|name| left.contains_key(*name)).unwrap();
        if let Some(start) = path.iter().position(|name| name == next) {
            path.push(next.clone());
            return Some(path.split_off(start));
        }
        path.push(next.clone());
    }
}

/// The names of the functions that a crate's text has.
fn written(text: &str) -> Vec<String> {
    let mut names = Vec::new();
    for line in text.lines() {
        if let Some((_, rest)) = format!(" {line}").split_once(" fn ") {
            names.push(rest.split(['(', '<']).next().unwrap().into());
        }
    }
    names.sort();
    names
}

/// The words of a text.
fn words(text: &str) -> impl Iterator<Item = &str> {
    let words = text.split(|c: char| !c.is_alphanumeric() && c != '_');
    words.filter(|word| !word.is_empty())
}

/// A crate's sources as one text, without comments.
fn text_of(source: &Path) -> String {
    let read = |file: &PathBuf| code(&fs::read_to_string(file).unwrap()).join("\n");
    let texts: Vec<_> = sources(source).iter().map(read).collect();
    texts.join("\n")
}

/// The impls that are derived in a text, by their names in the kit: those of the type and of the trait.
fn derived(text: &str) -> BTreeSet<String> {
    let mut found = BTreeSet::new();
    for piece in text.split("#[derive(").skip(1) {
        let (traits, behind) = piece.split_once(")]").unwrap();
        let mut behind = words(behind).skip_while(|word| !["struct", "enum"].contains(word));
        let name = behind.nth(1).expect("a type is behind its derives");
        found.extend(words(traits).map(|it| format!("{name}{it}")));
    }
    found
}

/// The names of a crate's functions that are in its code, but for those that no source writes: the bodies of closures, what a derive
/// gives, and what the kit makes of itself, whose names have a `+`.
fn seen(code: &Code, name: &str, derived: &BTreeSet<String>) -> Vec<String> {
    let written = |path: &str| {
        let path = path.strip_suffix("+decl").unwrap_or(path);
        let (front, last) = path.rsplit_once("::").unwrap();
        let parent = front.rsplit("::").next().unwrap();
        let closure = front.split("::").any(|part| part == "fn");
        let made = closure || path.contains('+') || derived.contains(parent);
        (!made).then(|| last.to_owned())
    };
    let mut names: Vec<_> = code.names(name).filter_map(written).collect();
    names.sort();
    names
}

/// A declaration of a type from its name on.
fn declaration(text: &str) -> &str {
    let mut depth = 0;
    let end = text.find(|c| {
        depth += match c {
            '{' | '(' => 1,
            '}' | ')' => -1,
            _ => 0,
        };
        depth == 0 && [';', '}'].contains(&c)
    });
    &text[..end.expect("a declaration ends")]
}

/// The types that a crate's text declares, each with those of them that its declaration names.
fn types(text: &str) -> Calls {
    let mut declared = Vec::new();
    for mark in [" struct ", " enum ", "\nstruct ", "\nenum "] {
        for (at, _) in text.match_indices(mark) {
            let mut behind = words(declaration(&text[at + mark.len()..]));
            let name = behind.next().expect("a type has a name");
            declared.push((name, behind.collect::<Vec<_>>()));
        }
    }
    let names: BTreeSet<_> = declared.iter().map(|(name, _)| *name).collect();
    let mut found = Calls::new();
    for (name, body) in declared {
        let inside = body.into_iter().filter(|word| names.contains(word));
        let types = found.entry(name.into()).or_default();
        types.extend(inside.map(String::from));
    }
    found
}

/// The folders in which proofs of cycles of calls stand, and the functions that are named as parts of one.
fn cycles_of(folder: &Path) -> Vec<PathBuf> {
    let mut found = Vec::new();
    let mut folders = vec![folder.join("proofs")];
    while let Some(folder) = folders.pop().filter(|folder| folder.is_dir()) {
        for entry in fs::read_dir(folder).unwrap() {
            let path = entry.unwrap().path();
            if path.file_name().unwrap().to_string_lossy().starts_with('+') {
                found.push(path.clone());
            }
            folders.extend(path.is_dir().then_some(path));
        }
    }
    for file in sources(&folder.join("src")) {
        let text = fs::read_to_string(&file).unwrap();
        found.extend(text.contains("#[cycle").then_some(file));
    }
    found
}

/// The kit's libraries that a crate reaches.
const KIT: [&str; 9] = [
    "core",
    "io",
    "libc",
    "os",
    "std",
    "std_alloc",
    "std_collections",
    "std_heap",
    "std_io",
];

/// A file that the kit has of each of these libraries.
fn of_the_kit(file: &str) -> Vec<(&'static str, String)> {
    let mut rt = Command::new("rt");
    let page = printed(rt.arg("doc").output().expect("`rt`, of the Rattle kit"));
    let rlibs = Path::new(page.trim()).with_file_name("rlibs");
    let read = |name| {
        let file = rlibs.join(format!("{name}.rlib/toolchain/{file}"));
        let text = fs::read_to_string(&file);
        (
            name,
            text.unwrap_or_else(|error| panic!("{file:?}: {error}")),
        )
    };
    KIT.map(read).into()
}

/// The modules of the kit's libraries that have a cycle of calls, by the folders of those cycles.
fn cycles_of_the_kit() -> BTreeSet<String> {
    let mut found = BTreeSet::new();
    for (name, list) in of_the_kit("checked.json") {
        let proofs = format!("Rattle-{name}-proofs.");
        assert!(list.contains(&proofs), "{name}: no module of a proof");
        for module in list.split(&proofs[..]).skip(1) {
            let module = module.split('"').next().unwrap();
            if let Some((front, _)) = module.split_once(".+") {
                let front: Vec<_> = front.split('.').take(2).collect();
                found.insert(format!("{name}::{}", front.join("::")));
            }
        }
    }
    found
}

/// The kit's libraries, as code.
static KIT_CODE: LazyLock<Code> = LazyLock::new(|| {
    let mut code = Code::default();
    for (name, mir) in of_the_kit("mir.json") {
        code.add(name, &mir, false);
    }
    code
});

#[test]
#[cfg_attr(not(kit), ignore = "the kit is missing")]
fn no_function_calls_itself() {
    let repository = Path::new(env!("CARGO_MANIFEST_DIR")).join("..");
    let list = fs::read_to_string(repository.join("crates.txt")).unwrap();
    let lines = list.lines().filter(|line| !line.starts_with('#'));
    let heads = lines.filter_map(|line| line.split_once(':'));
    let names: Vec<&str> = heads
        .map(|(head, _)| head.split(' ').next().unwrap())
        .collect();
    let mut code = KIT_CODE.clone();
    let (mut functions, mut declared) = (0, 0);
    for name in names {
        let folder = repository.join("crates").join(name);
        let text = text_of(&folder.join("src"));
        let written = written(&text);
        functions += written.len();
        assert_eq!(cycles_of(&folder), [""; 0].map(PathBuf::from), "of {name}");
        let types = types(&text);
        declared += types.len();
        assert_eq!(cycle(&types), None, "{name}: a type contains itself");
        if folder.join("src/main.rt").is_file() {
            continue;
        }
        code.add(name, &mir_of(&repository, name), true);
        let seen = seen(&code, name, &derived(&text));
        assert_eq!(seen, written, "functions of {name}");
    }
    assert!(functions > 400, "only {functions} functions");
    assert!(declared > 60, "only {declared} types");
    assert_eq!(cycle(&code.calls()), None, "a cycle of calls");
}

/// The kit's functions from which a chain of calls may lead to one of these modules. A function may call each function that it names, and
/// each of an impl that it passes on.
fn leads_to(modules: &[&str]) -> BTreeSet<String> {
    let texts = of_the_kit("mir.json");
    let all: Vec<_> = texts.iter().flat_map(|(_, mir)| definitions(mir)).collect();
    let mut of_impl = BTreeMap::<_, Vec<_>>::new();
    for (name, _) in &all {
        if let Some((front, _)) = name.rsplit_once("::") {
            of_impl.entry(front).or_default().push(*name);
        }
    }
    let mut callers = BTreeMap::<_, Vec<_>>::new();
    for (name, text) in &all {
        let impls = named(text, "{\"Impl\":[\"").filter_map(|name| of_impl.get(name));
        for called in named(text, "{\"Fn\":[\"").chain(impls.flatten().copied()) {
            callers.entry(called).or_default().push(*name);
        }
    }
    let inside = |name: &str| {
        let mut behind = modules
            .iter()
            .filter_map(|module| name.strip_prefix(module));
        behind.any(|rest| rest.starts_with("::"))
    };
    let mut todo: Vec<_> = all.iter().map(|(name, _)| *name).collect();
    todo.retain(|name| inside(name));
    let mut found = BTreeSet::new();
    while let Some(name) = todo.pop() {
        if found.insert(name.to_owned()) {
            todo.extend(callers.get(name).into_iter().flatten());
        }
    }
    found
}

/// No source has a word by which a function of the kit that leads to a cycle, or its type or module, would be named.
#[test]
#[cfg_attr(not(kit), ignore = "the kit is missing")]
fn no_cycle_of_the_kit_is_named() {
    let modules = [
        "core::slice::sort",
        "std::thread::fork",
        "std_collections::btree::node",
    ];
    assert_eq!(cycles_of_the_kit(), BTreeSet::from(modules.map(Into::into)));
    let found = leads_to(&modules);
    assert!(found.len() > 200, "only {} functions", found.len());
    for name in found {
        let path = name.to_lowercase();
        let mut words = ["sort", "slice::select", "thread", "btree", "process"].into_iter();
        assert!(words.any(|word| path.contains(word)), "{name}");
    }
    let crates = Path::new(env!("CARGO_MANIFEST_DIR")).join("../crates");
    let files = sources(&crates);
    assert!(files.len() > 50, "only {} sources", files.len());
    for file in files {
        let text = fs::read_to_string(&file).unwrap();
        let text = code(&text).join("\n").to_lowercase();
        for word in ["sort", "select_nth", "thread", "btree", "process"] {
            assert!(!text.contains(word), "{}: {word}", file.display());
        }
    }
}

/// Adds the calls of a program's functions to `calls`, off its machine code as `objdump -d` prints it, and gives the functions that call by
/// an address that is computed. What the dynamic linker brings is a function that calls none.
fn disassembled(text: &str, calls: &mut Calls) -> BTreeSet<String> {
    let mut computed = BTreeSet::new();
    let mut function = String::new();
    // The last instruction that has written each register.
    let mut written = BTreeMap::new();
    for line in text.lines() {
        if let Some((_, name)) = line.strip_suffix(">:").and_then(|it| it.split_once(" <")) {
            function = name.into();
            written.clear();
            calls.entry(function.clone()).or_default();
            continue;
        }
        let Some((_, instruction)) = line.split_once(":\t") else {
            continue;
        };
        let jump = instruction.starts_with('j');
        if !jump && !instruction.starts_with("call") {
            let name = instruction.split_whitespace().next().unwrap_or_default();
            let place = instruction.rsplit([',', ' ', '\t']).next().unwrap();
            if !name.starts_with("cmp") && !name.starts_with("test") {
                written.insert(place, name);
            }
            continue;
        }
        // A jump that leaves its function is a call in the last place.
        match instruction.split_once('<') {
            Some((front, to)) if !front.contains('*') => {
                let to = to.strip_suffix('>').unwrap();
                let (name, inside) = match to.rsplit_once("+0x") {
                    Some((name, _)) => (name, true),
                    None => (to, false),
                };
                if !(jump && name == function) {
                    assert!(!inside, "{function}: into {to}");
                    calls.get_mut(&function).unwrap().insert(name.into());
                }
            }
            _ if jump && !instruction.contains('*') => panic!("{function}: {instruction}"),
            _ => {
                // A jump by a table of the function's own is no call: there the place in the table is added to the table's address.
                let to = instruction.split_once('*').unwrap().1;
                if !jump || written.get(to) != Some(&"add") {
                    computed.insert(function.clone());
                }
            }
        }
    }
    computed
}

fn machine_code(program: &Path) -> String {
    let mut objdump = Command::new("objdump");
    objdump
        .args(["-d", "--no-show-raw-insn", "--section=.text"])
        .arg(program);
    let text = objdump.output().expect("`objdump`, beside the C linker");
    printed(text)
}

#[test]
#[cfg_attr(not(all(buslog, lpspi, trial)), ignore = "a program is missing")]
fn no_function_of_a_program_calls_itself() {
    for name in ["buslog", "lpspi", "trial"] {
        let crates = Path::new(env!("CARGO_MANIFEST_DIR")).join("../crates");
        let text = machine_code(&crates.join(format!("{name}/out/{name}")));
        let mut calls = Calls::new();
        let computed = disassembled(&text, &mut calls);
        let own = calls
            .keys()
            .filter(|it| it.starts_with(&format!("{name}::")));
        assert!(own.count() > 0, "{name}: no function of its own");
        assert!(calls.len() > 20, "{name}: only {} functions", calls.len());
        let start = [
            "_start",
            "deregister_tm_clones",
            "register_tm_clones",
            "__do_global_dtors_aux",
        ];
        let start = BTreeSet::from(start.map(String::from));
        let others: Vec<_> = computed.difference(&start).collect();
        assert_eq!(others, [&""; 0], "{name}: calls by a computed address");
        let outside: Vec<String> = calls.values().flatten().cloned().collect();
        for function in outside {
            assert!(
                calls.contains_key(&function) || function.ends_with("@plt"),
                "{name}: {function}"
            );
            calls.entry(function).or_default();
        }
        assert_eq!(cycle(&calls), None, "{name}: a cycle of calls");
    }
}

/// The same on machine code that has recursions.
#[test]
fn a_recursion_in_machine_code_is_seen() {
    let found = |lines: &[&str]| {
        let mut calls = Calls::new();
        let computed = disassembled(&lines.join("\n"), &mut calls);
        let path = cycle(&calls).map_or("none".into(), |path| path.join(" "));
        (path, computed.into_iter().collect::<Vec<_>>())
    };
    let half = [
        "0000000000001000 <half>:",
        "    1000:\tshr    $1,%edi",
        "    1002:\tret",
    ];
    let twice = [
        "0000000000001010 <twice>:",
        "    1010:\tcall   1000 <half>",
        "    1015:\tjne    1010 <twice>",
        "    1017:\tjmp    1000 <half>",
    ];
    let both = [&half[..], &twice[..]].concat();
    assert_eq!(found(&both), ("none".into(), vec![]));
    let itself = ["0000000000001020 <down>:", "    1020:\tcall   1020 <down>"];
    assert_eq!(found(&[&both[..], &itself[..]].concat()).0, "down down");
    let even = ["0000000000001030 <even>:", "    1030:\tcall   1040 <odd>"];
    let odd = ["0000000000001040 <odd>:", "    1040:\tjmp    1030 <even>"];
    assert_eq!(
        found(&[&both[..], &even[..], &odd[..]].concat()).0,
        "even odd even"
    );
    let computed = ["0000000000001050 <by>:", "    1050:\tcall   *%rax"];
    assert_eq!(found(&[&both[..], &computed[..]].concat()).1, ["by"]);
    let last = [
        "0000000000001060 <last>:",
        "    1060:\tmov    0x18(%rsi),%rax",
        "    1064:\tcmp    %rdi,%rax",
        "    1067:\tjmp    *%rax",
    ];
    assert_eq!(found(&last).1, ["last"]);
    let table = [
        "0000000000001070 <table>:",
        "    1070:\tmovslq (%rcx,%rax,4),%rax",
        "    1074:\tadd    %rcx,%rax",
        "    1077:\tjmp    *%rax",
    ];
    assert_eq!(found(&table).1, [""; 0]);
    let memory = [
        "0000000000001080 <memory>:",
        "    1080:\tjmp    *0x18(%rsi)",
    ];
    assert_eq!(found(&memory).1, ["memory"]);
}

/// A function of an MIR: its name, the trait or impl that it is a method of, the traits of its bounds, and its calls.
fn function(name: &str, method_of: &str, bounds: &[&str], calls: &[&str]) -> String {
    let bounds: Vec<_> = bounds
        .iter()
        .map(|of| format!(r#"{{"of":"{of}"}}"#))
        .collect();
    let calls: Vec<_> = calls
        .iter()
        .map(|call| format!(r#"{{"Call":[{call},[],0]}}"#))
        .collect();
    let (bounds, calls) = (bounds.join(","), calls.join(","));
    format!(
        r#"["{name}",{{"generics":{{"bounds":[{bounds}],"method_of":{method_of},"impls":[]}},"body":["Seq",{calls}]}}]"#
    )
}

/// The same on code that has recursions, without the kit: `f` is generic over the trait `T` of `low`, or over closures.
#[test]
fn a_recursion_behind_a_bound_is_seen() {
    let call = |name: &str, impls: &[&str]| {
        let impls: Vec<_> = impls
            .iter()
            .map(|name| format!(r#"{{"Impl":["{name}",[],[]]}}"#))
            .collect();
        format!(
            r#"{{"Fn":["{name}",{{"types":[],"dicts":[{}]}}]}}"#,
            impls.join(",")
        )
    };
    let impls = [
        r#"{"name":"low::AT","methods":["low::AT::m"]}"#,
        r#"{"name":"low::C","methods":["low::C::call_once"]}"#,
        r#"{"name":"low::D","methods":["low::D::call_once"]}"#,
    ];
    let behind = r#"{"Method":[{"Given":0},0,{"types":[],"dicts":[]}]}"#;
    let once = "core::FnOnce";
    let found = |a: &[&str], b: &[&str], c: &[&str], d: &[&str], top: &[&str]| {
        let low = [
            function("low::T::m+decl", r#"{"Trait":["low::T",0]}"#, &[], &[]),
            function("low::AT::m", r#"{"Impl":["low::AT",0]}"#, &[], a),
            function("low::BT::m", r#"{"Impl":["low::BT",0]}"#, &[], b),
            function("low::C::call_once", r#"{"Impl":["low::C",0]}"#, &[], c),
            function("low::D::call_once", r#"{"Impl":["low::D",0]}"#, &[], d),
            function("low::f", "null", &["low::T"], &[behind]),
            function("low::end", "null", &[], &[]),
            function("low::top", "null", &[], top),
        ];
        let low = low.join(",").replacen(
            r#""impls":[]"#,
            &format!(r#""impls":[{}]"#, impls.join(",")),
            1,
        );
        let map = function("core::map", "null", &[once], &[behind]);
        let mut code = Code::default();
        code.add("core", &format!("[{map}]\n"), false);
        code.add("low", &format!("[{low}]\n"), true);
        cycle(&code.calls()).map_or("none".into(), |path| path.join(" "))
    };
    let end = &call("low::end", &[])[..];
    let (f, map_c) = (
        &call("low::f", &["low::AT"])[..],
        &call("core::map", &["low::C"])[..],
    );
    let (map_d, top) = (
        &call("core::map", &["low::D"])[..],
        &call("low::top", &[])[..],
    );
    assert_eq!(found(&[end], &[end], &[end], &[end], &[f, map_c]), "none");
    // A closure that passes another one to the same function of the kit.
    assert_eq!(found(&[end], &[end], &[map_d], &[end], &[map_c]), "none");
    let path = "low::AT::m low::f low::AT::m";
    assert_eq!(found(&[f], &[end], &[end], &[end], &[end]), path);
    // An impl that is passed on nowhere.
    let path = "low::BT::m low::f low::BT::m";
    assert_eq!(found(&[end], &[f], &[end], &[end], &[end]), path);
    let path = "core::map<low::C> low::C::call_once low::top core::map<low::C>";
    assert_eq!(found(&[end], &[end], &[top], &[end], &[map_c]), path);
    let path =
        "core::map<low::C> low::C::call_once core::map<low::D> low::D::call_once core::map<low::C>";
    assert_eq!(found(&[end], &[end], &[map_d], &[map_c], &[end]), path);
}

#[test]
#[should_panic = "low::f: a call that names no function: CallV"]
fn a_call_by_an_address_is_seen() {
    let text = function("low::f", "null", &[], &[]);
    let text = text.replace(r#""Seq","#, r#""Seq",{"CallV":[0,[],0]}"#);
    let mut code = Code::default();
    code.add("low", &format!("[{text}]"), true);
    code.calls();
}

/// A tree with one library, `low`, whose proofs are those files.
struct Tree(PathBuf);

impl Tree {
    fn new(name: &str, source: &str, proofs: &[(&str, String)]) -> Self {
        let name = format!("lpspi-recursion-{}-{name}", std::process::id());
        let tree = Self(std::env::temp_dir().join(name));
        let low = tree.0.join("crates/low");
        fs::create_dir_all(low.join("src")).unwrap();
        fs::write(tree.0.join("crates.txt"), "low:\n").unwrap();
        fs::write(low.join("src/lib.rt"), source).unwrap();
        for (folder, text) in proofs {
            let folder = low.join("proofs").join(folder);
            fs::create_dir_all(&folder).unwrap();
            fs::write(folder.join("Invariants.antt"), text).unwrap();
        }
        tree
    }

    fn rt(&self, words: &[&str]) -> Output {
        let mut rt = Command::new("rt");
        rt.args(words).current_dir(self.0.join("crates/low"));
        rt.output().expect("`rt`, of the Rattle kit")
    }

    /// A cycle of its calls, once it is proved.
    fn cycle(&self) -> String {
        printed(self.rt(&["lib"]));
        let made = self
            .0
            .join("crates/low/out/rlib/low.rlib/toolchain/mir.json");
        let mut code = KIT_CODE.clone();
        code.add("low", &fs::read_to_string(made).unwrap(), true);
        cycle(&code.calls()).map_or("none".into(), |path| path.join(" "))
    }

    /// What is said where it is not proved.
    fn refused(&self) -> String {
        let output = self.rt(&["lib"]);
        let said = String::from_utf8_lossy(&output.stderr);
        let text = String::from_utf8_lossy(&output.stdout);
        assert!(!output.status.success(), "{text}");
        format!("{text}{said}")
    }
}

impl Drop for Tree {
    fn drop(&mut self) {
        fs::remove_dir_all(&self.0).unwrap();
    }
}

/// The measures of functions of a cycle, whose proofs stand in a folder.
fn measures<'a>(folder: &'a str, measures: &[(&str, &str)]) -> (&'a str, String) {
    let module = folder.replace('/', ".");
    let sum = measures.iter().any(|(_, measure)| measure.contains('+'));
    let sum = if sum {
        "use Rattle.std.specs.Prelude.{◌+◌}\n"
    } else {
        ""
    };
    let mut text = format!("{sum}use Rattle.low.proofs.{module}.Given as goal\n");
    for (name, measure) in measures {
        text += &format!(
            "\nabbrev pub decreases-{name} : goal.decreases-{name}\ndecreases-{name} l = {measure}\n"
        );
    }
    (folder, text)
}

const TWICE: &str =
    "pub fn twice(n: u32) -> u32 { half(half(n)) }\nfn half(n: u32) -> u32 { n / 2 }\n";
const DOWN: &str = "fn down(n: u32) -> u32 { if n == 0 { 0 } else { down(n - 1) } }\n";
const EVEN: &str = "fn even(n: u32) -> bool { if n == 0 { true } else { odd(n - 1) } }\n";
const ODD: &str = "fn odd(n: u32) -> bool { if n == 0 { false } else { even(n - 1) } }\n";
const METHOD: &str = "#[derive(Clone, Copy)]\npub struct Count { n: u32 }\nimpl Count { pub fn end(self) -> u32 { if self.n == 0 { 0 } else { Count { n: self.n - 1 }.end() } } }\n";

// A method behind a bound leads back. The kit wants no measure, since each turn goes to a part of the value.
const BEHIND: &str = "pub struct Node<'a> { next: Option<&'a Node<'a>> }\npub trait Count { fn end(&self) -> u32; }\nimpl<T: Count> Count for &T { fn end(&self) -> u32 { (**self).end() } }\nimpl<'a> Count for Node<'a> { fn end(&self) -> u32 { match &self.next { Some(node) => node.end(), None => 0 } } }\n";
// An impl's method leads back by a function that is generic.
const IMPL: &str = "pub trait Ends: Copy { fn end(self) -> u32; }\nimpl Ends for u32 { fn end(self) -> u32 { if self == 0 { 0 } else { tally(self - 1) } } }\npub fn tally<T: Ends>(x: T) -> u32 { x.end() }\n";
// A closure leads back, by a function of the tree and one of the kit.
const CLOSURE: &str = "pub fn fall(n: u32) -> u32 { let below = || -> u32 { if n == 0 { 0 } else { fall(n - 1) } }; called(below) }\nfn called<F: FnOnce() -> u32>(f: F) -> u32 requires { F.pre f } { true.then(f).unwrap_or(0) }\n";
// Bounds and closures, and no function that calls itself.
const SOUND: &str = "pub trait Ends: Copy { fn end(self) -> u32; }\nimpl Ends for u32 { fn end(self) -> u32 { third(self) } }\nimpl Ends for u8 { fn end(self) -> u32 { u32::from(self) } }\npub fn tally<T: Ends>(x: T) -> u32 { true.then(|| x.end()).unwrap_or(0) }\npub fn last(n: u32) -> u32 { tally(n) }\npub fn ninth(n: u32) -> u32 { Some(n).map(|n| third(n)).unwrap_or(0) }\nfn third(n: u32) -> u32 { Some(n).map(|n| n / 3).unwrap_or(0) }\n";

/// The same on trees that have recursions.
#[test]
#[cfg_attr(not(kit), ignore = "the kit is missing")]
fn a_recursion_is_seen() {
    let found = |name: &str, source: &str, proofs: &[(&str, String)]| {
        let tree = Tree::new(name, source, proofs);
        let cycles = cycles_of(&tree.0.join("crates/low"));
        assert_eq!(cycles.is_empty(), proofs.is_empty());
        tree.cycle()
    };
    assert_eq!(found("none", &format!("{TWICE}{SOUND}"), &[]), "none");
    let down = measures("+down", &[("down", "l.n")]);
    assert_eq!(
        found("down", &(TWICE.to_owned() + DOWN), &[down]),
        "low::down low::down"
    );
    let parity = measures("+parity", &[("even", "l.n"), ("odd", "l.n")]);
    let both = format!("{TWICE}#[cycle(parity)]\n{EVEN}#[cycle(parity)]\n{ODD}");
    assert_eq!(
        found("parity", &both, &[parity]),
        "low::even low::odd low::even"
    );
    let end = measures("Count/+end", &[("end", "l.self.n")]);
    assert_eq!(
        found("method", METHOD, &[end]),
        "low::Count::end low::Count::end"
    );
    assert_eq!(
        found("behind", BEHIND, &[]),
        "low::NodeCount::end low::RefCount::end low::NodeCount::end"
    );
    assert_eq!(cycle(&types(BEHIND)), Some(vec!["Node".into(); 2]));
    let turns = [("fall", "1 + l.n + l.n"), ("below", "l.n + l.n")];
    let fall = measures("+fall+fn-fall-below", &turns);
    assert_eq!(
        found("closure", CLOSURE, &[fall]),
        "core::bool::then<low::fn::fall::below+FnOnce,low::Destruct++none> low::fn::fall::below+FnOnce::call_once \
         low::fn::fall::below low::fall low::called core::bool::then<low::fn::fall::below+FnOnce,low::Destruct++none>"
    );
}

/// The kit's rule, by which the programs have no recursion.
#[test]
#[cfg_attr(not(kit), ignore = "the kit is missing")]
fn a_recursion_without_a_folder_of_its_own_is_not_proved() {
    let both = Tree::new("unnamed", &format!("{TWICE}{EVEN}{ODD}"), &[]);
    let said = both.refused();
    assert!(said.contains("error[unnamed-cycle]"), "{said}");
    let parity = format!("#[cycle(parity)]\n{EVEN}#[cycle(parity)]\n{ODD}");
    let source = format!("{TWICE}{DOWN}{parity}{METHOD}{CLOSURE}{IMPL}");
    let said = Tree::new("unmeasured", &source, &[]).refused();
    let line = "a method of the block `low::U32Ends` leads back to this function";
    assert!(said.contains(line), "{said}");
    for (name, folder) in [
        ("down", "+down"),
        ("even", "+parity"),
        ("odd", "+parity"),
        ("Count::end", "Count/+end"),
        ("fall", "+fall+fn-fall-below"),
    ] {
        let line = format!(
            "fn low::{name}: no proof: expected a measure in ./proofs/{folder}/Invariants.antt"
        );
        assert!(said.contains(&line), "{line}\n{said}");
    }
}
