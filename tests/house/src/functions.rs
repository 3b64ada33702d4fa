//! The functions of a file of Rattle: each with its signature and its contract, as text.

/// A function: its name, the type whose method it is, whether it is marked `pub`, its parameters, whether it answers something, what it asks and what it promises.
pub struct Function {
    pub name: String,
    pub of: Option<String>,
    pub public: bool,
    /// Names of the parameters that are lent to be written.
    pub written: Vec<String>,
    pub answers: bool,
    pub requires: Vec<String>,
    pub ensures: Vec<String>,
}

/// The functions of a text, in its order, and the methods of its types. A head begins with `fn` at the start of a line, or four places in within an `impl`, and ends at the line `{` or at a `{` that is no contract's.
pub fn functions(text: &str) -> Vec<Function> {
    let mut found = Vec::new();
    let mut of = None;
    let lines: Vec<&str> = text.lines().collect();
    for (at, line) in lines.iter().enumerate() {
        if line.starts_with("impl") {
            of = of_type(line);
        } else if *line == "}" {
            of = None;
        }
        let head = if of.is_some() { line.strip_prefix("    ").unwrap_or(line) } else { line };
        let words = head.trim_start_matches("pub(crate) ").trim_start_matches("pub ");
        let words = words.trim_start_matches("extern \"C\" ");
        if head.starts_with(' ') || !words.starts_with("fn ") {
            continue;
        }
        let public = head.starts_with("pub fn") || head.starts_with("pub extern");
        found.push(function(public, of.clone(), &lines[at..]));
    }
    found
}

/// The type whose methods follow; those of a trait are not looked at.
fn of_type(line: &str) -> Option<String> {
    let head = line.strip_suffix(" {")?;
    let name = head.rsplit(' ').next()?.split('<').next()?;
    (!head.contains(" for ")).then(|| name.into())
}

fn function(public: bool, of: Option<String>, lines: &[&str]) -> Function {
    let mut signature = String::new();
    let (mut requires, mut ensures) = (Vec::new(), Vec::new());
    let mut lines = lines.iter().map(|line| line.trim());
    while let Some(text) = lines.next() {
        if let Some((kind, start)) = clause(text) {
            let mut inside = start.to_string();
            while !is_closed(&inside) {
                let Some(more) = lines.next() else { break };
                inside.push(' ');
                inside.push_str(more);
            }
            let said = if kind == "ensures" { &mut ensures } else { &mut requires };
            said.push(inner(&inside));
        } else if text == "{" {
            break;
        } else {
            signature.push_str(text.trim_end_matches('{'));
            signature.push(' ');
            if text.ends_with('{') {
                break;
            }
        }
    }
    let name = signature
        .split("fn ")
        .nth(1)
        .unwrap_or_default()
        .split('(')
        .next()
        .unwrap_or_default()
        .trim()
        .to_string();
    let answers = signature.contains("->");
    let parameters = signature
        .split_once('(')
        .map_or("", |(_, rest)| rest.rsplit_once(')').map_or("", |(inside, _)| inside));
    let named =
        |part: &str| part.split(':').next().map(|name| name.trim().trim_start_matches("&mut ").to_string());
    let written = parameters.split(',').filter(|part| is_lent(part)).filter_map(named).collect();
    Function {
        name: name.split('<').next().unwrap_or_default().into(),
        of,
        public,
        written,
        answers,
        requires,
        ensures,
    }
}

/// A line that begins a clause: its kind, and what stands behind its first brace. A ghost value is something asked, and a starred clause counts as the clause.
fn clause(text: &str) -> Option<(&'static str, &str)> {
    let kind = ["requires", "ensures", "ghost"].into_iter().find(|kind| text.starts_with(kind))?;
    let (name, inside) = text[kind.len()..].trim_start_matches('*').split_once('{')?;
    let named = name.chars().all(|letter| letter.is_alphanumeric() || "_: ".contains(letter));
    (name.starts_with(' ') && named).then_some((kind, inside))
}

/// Whether the clause whose first brace is open ends in this text.
fn is_closed(text: &str) -> bool {
    let count = |brace| text.matches(brace).count();
    count('}') > count('{')
}

/// Whether a parameter is lent to be written, for a named time or not.
fn is_lent(parameter: &str) -> bool {
    parameter.split('&').skip(1).any(|kind| {
        let time = kind
            .strip_prefix('\'')
            .map(|rest| rest.trim_start_matches(|c: char| c.is_alphanumeric() || c == '_'));
        time.map_or(kind, str::trim_start).starts_with("mut ")
    })
}

/// What stands in a contract's braces, without the last of them.
fn inner(text: &str) -> String {
    let text = text.trim();
    text.strip_suffix('}').unwrap_or(text).trim().to_string()
}
