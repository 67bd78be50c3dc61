// Which definitions have to be believed: those that the statements of the demands, of batches, of delivered caches and of typed lines reach. Starts at those in
// crates/demands/specs, follows every name to where it is defined in some crate's specs/, and stops at the clauses of the contracts (HINGES), which stand in
// the contract and in the theorem alike. Prints the list of docs/TRUST.md: files in the order of crates.txt, with the lines of their believed definitions,
// comments included.
use std::collections::{BTreeMap, BTreeSet};
use std::fs;
use std::path::Path;

const HINGES: [&str; 7] = ["CheckDid", "BeginDid", "PlainDid", "QuickDid", "BatchDid", "AuditDid", "SplitDid"];

// A definition: its lines in the file (comments in front of it included), and the names that it uses.
struct Definition {
    name: String,
    from: usize,
    to: usize,
    uses: BTreeSet<String>,
}

// A file of specs/: what it imports (a name, and the module and name that it stands for), its definitions, and which of them each name belongs to.
struct Module {
    imports: BTreeMap<String, (String, String)>,
    aliases: BTreeMap<String, String>,
    definitions: Vec<Definition>,
    owner: BTreeMap<String, usize>,
    lines: usize,
}

fn delimiter(c: char) -> bool {
    c.is_whitespace() || "(){}[],;|=".contains(c)
}

// The names in a line of antt, its comment left out. `a.b` may be the name `b` of `a`, or a projection of `a`.
fn words(line: &str) -> Vec<String> {
    let code = match line.find("-- ") {
        Some(at) => &line[..at],
        None => line,
    };
    let mut found: Vec<String> = vec![];
    for word in code.split(delimiter).filter(|w| !w.is_empty() && *w != ":" && !w.starts_with('.')) {
        found.push(word.to_string());
        if let Some((projected, _)) = word.split_once('.') {
            found.push(projected.to_string());
        }
    }
    found
}

// The name that a line begins to define, and whether it is a record or a data type, whose fields or constructors follow.
fn defines(line: &str) -> Option<(String, bool)> {
    let indent = line.len() - line.trim_start().len();
    if indent > 2 {
        return None;
    }
    let parts: Vec<&str> = line.split_whitespace().collect();
    let mut k = 0;
    let mut marked = false;
    while k < parts.len() && ["abbrev", "unfoldable", "pub"].contains(&parts[k]) {
        marked = marked || parts[k] != "pub";
        k += 1;
    }
    if k + 1 >= parts.len() {
        return None;
    }
    if parts[k] == "record" || parts[k] == "data" {
        return Some((parts[k + 1].to_string(), true));
    }
    if marked {
        return Some((parts[k].to_string(), false));
    }
    None
}

// `Rattle.grammar.specs.inside.Tables` as `grammar/inside/Tables`; `=grammar/Symbol` for types that the code declares. A library's module is no module here.
fn module_of(path: &str) -> Option<String> {
    let (name, inside) = path.strip_prefix("Rattle.")?.split_once(".specs.")?;
    match inside.strip_prefix("declared.") {
        Some(kind) => Some(format!("={}/{}", name, kind.trim_end_matches(".TheVariants").rsplit('.').next()?)),
        None => Some(format!("{}/{}", name, inside.replace('.', "/"))),
    }
}

fn import(module: &mut Module, line: &str) {
    let text = line.trim_start_matches("pub ").trim_start_matches("use ");
    if let Some((path, alias)) = text.split_once(" as ") {
        if !path.contains('{') {
            if let Some(m) = module_of(path) {
                module.aliases.insert(alias.to_string(), m);
            }
            return;
        }
    }
    let Some((path, names)) = text.split_once(".{") else { return };
    let Some(m) = module_of(path) else { return };
    for name in names.trim_end_matches('}').split(',') {
        let name = name.trim();
        let (there, here) = name.split_once(" as ").unwrap_or((name, name));
        module.imports.insert(here.to_string(), (m.clone(), there.to_string()));
    }
}

fn parse(text: &str) -> Module {
    let lines: Vec<&str> = text.lines().collect();
    let mut module =
        Module { imports: BTreeMap::new(), aliases: BTreeMap::new(), definitions: vec![], owner: BTreeMap::new(), lines: lines.len() };
    let mut section: Vec<String> = vec![];
    let mut members = false;
    let mut open = false;
    for (k, line) in lines.iter().enumerate() {
        let trimmed = line.trim_start();
        let indent = line.len() - trimmed.len();
        if line.starts_with("use ") || line.starts_with("pub use ") {
            import(&mut module, line);
        } else if trimmed.starts_with("module _") {
            section = words(line);
            open = false;
        } else if trimmed.is_empty() || trimmed.starts_with("--") && indent == 0 {
            open = false;
        } else if let Some((name, has_members)) = defines(line) {
            if indent == 0 {
                section.clear();
            }
            let mut from = k;
            while from > 0 && lines[from - 1].trim_start().starts_with("--") {
                from -= 1;
            }
            module.owner.insert(name.clone(), module.definitions.len());
            module.definitions.push(Definition { name, from, to: k, uses: section.iter().cloned().chain(words(line)).collect() });
            members = has_members;
            open = true;
        } else if open {
            let at = module.definitions.len() - 1;
            module.definitions[at].to = k;
            module.definitions[at].uses.extend(words(line));
            let first = trimmed.trim_start_matches("pub ").split_whitespace().next().unwrap_or("");
            if members && indent > 0 && trimmed.trim_start_matches("pub ").contains(" : ") {
                module.owner.entry(first.to_string()).or_insert(at);
            }
        }
    }
    module
}

fn collect(folder: &Path, prefix: &str, modules: &mut BTreeMap<String, (String, Module)>) {
    let Ok(entries) = fs::read_dir(folder) else { return };
    for entry in entries.flatten() {
        let path = entry.path();
        let name = path.file_stem().unwrap().to_string_lossy().to_string();
        if path.is_dir() {
            collect(&path, &format!("{prefix}/{name}"), modules);
        } else if path.extension().is_some_and(|e| e == "antt") {
            let text = fs::read_to_string(&path).unwrap();
            modules.insert(format!("{prefix}/{name}"), (path.to_string_lossy().to_string(), parse(&text)));
        }
    }
}

// Where a name that is used in a module is defined.
fn resolve(modules: &BTreeMap<String, (String, Module)>, at: &str, name: &str) -> Option<(String, usize)> {
    let (_, module) = modules.get(at)?;
    if let Some(k) = module.owner.get(name) {
        return Some((at.to_string(), *k));
    }
    if let Some((there, original)) = module.imports.get(name) {
        return if there.starts_with('=') { Some((there.clone(), 0)) } else { resolve(modules, there, original) };
    }
    let (alias, member) = name.split_once('.')?;
    resolve(modules, module.aliases.get(alias)?, member)
}

fn main() {
    let order: Vec<String> = fs::read_to_string("crates.txt").unwrap().lines().filter_map(|l| l.split_once(':').map(|x| x.0.to_string())).collect();
    let mut modules = BTreeMap::new();
    for name in &order {
        collect(Path::new(&format!("crates/{name}/specs")), name, &mut modules);
    }
    let mut believed: BTreeSet<(String, usize)> = BTreeSet::new();
    let mut declared: BTreeSet<String> = BTreeSet::new();
    let mut open: Vec<(String, usize)> = vec![];
    let stated = |key: &str| key.starts_with("demands/Demand") || ["demands/Trucks", "demands/Delivered", "demands/Typed"].contains(&key);
    for (key, (_, module)) in modules.iter().filter(|(key, _)| stated(key)) {
        open.extend((0..module.definitions.len()).map(|k| (key.clone(), k)));
    }
    while let Some(next) = open.pop() {
        let Some((_, module)) = modules.get(&next.0) else { continue };
        if !believed.insert(next.clone()) {
            continue;
        }
        for name in &module.definitions[next.1].uses {
            match resolve(&modules, &next.0, name) {
                Some((there, _)) if there.starts_with('=') => {
                    declared.insert(there[1..].replace('/', "::"));
                }
                Some((there, k)) if !HINGES.contains(&modules[&there].1.definitions[k].name.as_str()) => open.push((there, k)),
                _ => (),
            }
        }
    }
    println!("| file | believed definitions | their lines | lines of the file |\n|---|---|---|---|");
    let mut total = 0;
    for name in &order {
        for (key, (path, module)) in modules.iter().filter(|(k, _)| k.split('/').next() == Some(name)) {
            let mine: Vec<&Definition> =
                module.definitions.iter().enumerate().filter(|(k, _)| believed.contains(&(key.clone(), *k))).map(|(_, d)| d).collect();
            if mine.is_empty() {
                continue;
            }
            let count: usize = mine.iter().map(|d| d.to + 1 - d.from).sum();
            total += count;
            let said = if mine.len() == module.definitions.len() { "all".to_string() } else { format!("{} of {}", mine.len(), module.definitions.len()) };
            println!("| `{path}` | {said} | {count} | {} |", module.lines);
        }
    }
    println!("\nTogether {total} lines of definitions.\n");
    println!("Types that the code declares: {}.", declared.iter().map(|d| format!("`{d}`")).collect::<Vec<_>>().join(", "));
    if std::env::args().any(|a| a == "--names") {
        for (key, k) in &believed {
            println!("{key}: {}", modules[key].1.definitions[*k].name);
        }
    }
}
