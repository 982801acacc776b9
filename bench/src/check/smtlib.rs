//! A small evaluator of the part of SMT-LIB 2 that the converter writes. It knows nothing of sheets.

enum Expression {
    Word(String),
    List(Vec<Expression>),
}
use Expression::{List, Word};

/// Whether the declared constants can be set so that every assertion holds.
pub fn satisfiable(text: &str) -> bool {
    let spaced = text.replace('(', " ( ").replace(')', " ) ");
    let mut words = spaced.split_whitespace();
    let (mut constants, mut assertions) = (Vec::new(), Vec::new());
    while let Some(word) = words.next() {
        assert_eq!(word, "(", "a command");
        let mut command = list(&mut words);
        match &command[..] {
            [Word(name), Word(_)] if name == "set-logic" => {}
            [Word(name), Word(constant), Word(sort)] if name == "declare-const" && sort == "Bool" => {
                constants.push(constant.clone());
            }
            [Word(name), _] if name == "assert" => assertions.extend(command.pop()),
            [Word(name)] if name == "check-sat" => {}
            _ => panic!("an unknown command"),
        }
    }
    some(&constants, &mut Vec::new(), &mut |setting| assertions.iter().all(|assertion| value(assertion, setting)))
}

/// Up to the closing bracket.
fn list<'a>(words: &mut impl Iterator<Item = &'a str>) -> Vec<Expression> {
    let mut parts = Vec::new();
    loop {
        match words.next().expect("a closing bracket") {
            ")" => return parts,
            "(" => parts.push(List(list(words))),
            word => parts.push(Word(word.to_string())),
        }
    }
}

type Setting = Vec<(String, bool)>;

/// Some setting of the names, added to what is set, gives true.
fn some(names: &[String], setting: &mut Setting, holds: &mut dyn FnMut(&mut Setting) -> bool) -> bool {
    let Some((first, rest)) = names.split_first() else {
        return holds(setting);
    };
    [false, true].into_iter().any(|value| {
        setting.push((first.clone(), value));
        let found = some(rest, setting, holds);
        setting.pop();
        found
    })
}

fn value(expression: &Expression, setting: &mut Setting) -> bool {
    match expression {
        Word(word) if word == "false" => false,
        Word(word) => setting.iter().rev().find(|(name, _)| name == word).expect("a name in scope").1,
        List(parts) => match &parts[..] {
            [Word(word), part] if word == "not" => !value(part, setting),
            [Word(word), left, right] if word == "and" => value(left, setting) && value(right, setting),
            [Word(word), left, right] if word == "or" => value(left, setting) || value(right, setting),
            [Word(word), List(bound), body] if word == "exists" => {
                some(&names(bound), setting, &mut |setting| value(body, setting))
            }
            [Word(word), List(bound), body] if word == "forall" => {
                !some(&names(bound), setting, &mut |setting| !value(body, setting))
            }
            [Word(word), List(bindings), body] if word == "let" => bound_by_let(bindings, body, setting),
            _ => panic!("an unknown term"),
        },
    }
}

fn bound_by_let(bindings: &[Expression], body: &Expression, setting: &mut Setting) -> bool {
    let [List(binding)] = bindings else { panic!("one binding") };
    let [Word(name), term] = &binding[..] else { panic!("a name and a term") };
    let bound = value(term, setting);
    setting.push((name.clone(), bound));
    let result = value(body, setting);
    setting.pop();
    result
}

fn names(bound: &[Expression]) -> Vec<String> {
    let name = |part: &Expression| match part {
        List(pair) => match &pair[..] {
            [Word(name), Word(sort)] if sort == "Bool" => name.clone(),
            _ => panic!("a name and its sort"),
        },
        Word(_) => panic!("a sorted name"),
    };
    bound.iter().map(name).collect()
}
