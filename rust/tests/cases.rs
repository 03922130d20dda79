//! The cases of `tests/cases` with row files, which the program `features` runs too: resolves, orders, cycles and
//! faults. Their expected values are those of a reference model.
#![forbid(unsafe_code)]

use guppy_features::{DependencyDirection, FeatureGraph, FeatureId, FeatureLabel, PackageGraph, PackageId};
use std::error::Error;
use std::fs;
use std::path::{Path, PathBuf};

const FILES: [&str; 3] = ["small", "random", "published"];

/// A case: the row file, the words after the file's name, and the lines that are expected.
struct Case {
    place: String,
    rows: Vec<u8>,
    words: Vec<String>,
    lines: Vec<String>,
}

fn top() -> PathBuf {
    Path::new(env!("CARGO_MANIFEST_DIR")).join("..")
}

/// Returns the text with its escapes replaced by bytes.
fn unescaped(text: &str) -> Vec<u8> {
    let mut bytes = Vec::new();
    let mut left = text.bytes();
    while let Some(byte) = left.next() {
        if byte != b'\\' {
            bytes.push(byte);
            continue;
        }
        bytes.push(match left.next() {
            Some(b'n') => b'\n',
            Some(b'r') => b'\r',
            Some(b't') => b'\t',
            Some(b'0') => 0,
            Some(b'\\') => b'\\',
            Some(b'x') => {
                let digits = [left.next(), left.next()].map(|it| char::from(it.expect("a digit")));
                u8::from_str_radix(&String::from_iter(digits), 16).expect("two digits")
            }
            other => panic!("another escape: {other:?}"),
        });
    }
    bytes
}

/// Returns the words of a line as a shell splits them. The files have no other quotes than single ones.
fn words_of(line: &str) -> Vec<String> {
    let (mut words, mut word, mut is_quoted) = (Vec::new(), None::<String>, false);
    for letter in line.chars() {
        match letter {
            '\'' => {
                is_quoted = !is_quoted;
                word.get_or_insert_default();
            }
            ' ' if !is_quoted => words.extend(word.take()),
            _ => word.get_or_insert_default().push(letter),
        }
    }
    words.extend(word);
    words.iter().map(|it| String::from_utf8(unescaped(it)).expect("a word is a text")).collect()
}

/// Returns the cases of a file.
fn cases_of(name: &str) -> Vec<Case> {
    let text = fs::read_to_string(top().join(format!("tests/cases/{name}.cases"))).expect("the file of cases is there");
    let (mut rows, mut cases) = (Vec::new(), Vec::<Case>::new());
    let mut lines = text.split('\n').zip(1..);
    while let Some((line, number)) = lines.next() {
        if line == "rows" || line == "rows escaped" {
            let block: Vec<&str> = lines.by_ref().map(|it| it.0).take_while(|it| *it != "end").collect();
            let joined = || block.iter().map(|it| format!("{it}\n")).collect::<String>().into_bytes();
            rows = if line == "rows" { joined() } else { unescaped(&block.concat()) };
        } else if let Some(path) = line.strip_prefix("rows of ") {
            rows = fs::read(top().join(path)).expect("the row file is there");
        } else if let Some(words) = line.strip_prefix("$ FILE ") {
            let place = format!("{name}.cases:{number}");
            cases.push(Case { place, rows: rows.clone(), words: words_of(words), lines: Vec::new() });
        } else if let (Some(case), false) = (cases.last_mut(), line.is_empty() || line.starts_with('#')) {
            case.lines.push(line.to_owned());
        }
    }
    cases
}

/// Returns the lines that a case expects.
fn expected(case: &Case) -> Vec<String> {
    match case.lines.first().and_then(|it| it.strip_prefix("> of ")) {
        Some(path) => {
            let text = fs::read_to_string(top().join(path)).expect("the expected file is there");
            text.lines().map(|line| format!("> {line}")).collect()
        }
        None => case.lines.iter().map(|it| if it == ">" { "> ".to_owned() } else { it.clone() }).collect(),
    }
}

/// Returns the package and the label that a text names: it is cut at its last slash.
fn parts_of(text: &str) -> (PackageId, &str) {
    let (package, label) = text.rsplit_once('/').expect("an id has a slash");
    (PackageId::new(package), label)
}

fn label_of(text: &str) -> FeatureLabel<'_> {
    match text.strip_prefix("dep:") {
        Some(name) => FeatureLabel::OptionalDependency(name),
        None if text == "[base]" => FeatureLabel::Base,
        None => FeatureLabel::Named(text),
    }
}

fn direction_of(word: &str) -> DependencyDirection {
    match word {
        "forward" => DependencyDirection::Forward,
        "reverse" => DependencyDirection::Reverse,
        other => panic!("another direction: {other}"),
    }
}

/// Returns the features that are reached, by their numbers: package by package the base, the features, the optional
/// names.
fn resolve(graph: FeatureGraph<'_>, words: &[String]) -> Result<Vec<String>, Box<dyn Error>> {
    let parts: Vec<_> = words[1..].iter().map(|word| parts_of(word)).collect();
    let ids = parts.iter().map(|(package, label)| FeatureId::new(package, label_of(label)));
    let set = graph.query_directed(ids, direction_of(&words[0]))?.resolve();
    let all = graph.package_graph().packages().flat_map(|package| {
        let id = package.id();
        let named = package.named_features().map(move |name| FeatureId::named(id, name));
        let optional = package.optional_deps().map(move |name| FeatureId::optional_dependency(id, name));
        std::iter::once(FeatureId::base(id)).chain(named).chain(optional)
    });
    Ok(all.filter(|id| set.contains(*id) == Ok(true)).map(|id| format!("> {id}")).collect())
}

/// Returns the lines of an answer.
fn answer(case: &Case) -> Result<Vec<String>, Box<dyn Error>> {
    let graph = PackageGraph::from_rows(case.rows.as_slice())?;
    let features = graph.feature_graph();
    match case.words[0].as_str() {
        "resolve" => resolve(features, &case.words[1..]),
        "order" => {
            let ids = features.resolve_all().feature_ids(direction_of(&case.words[1]));
            Ok(ids.map(|id| format!("> {id}")).collect())
        }
        "cycles" => {
            let cycles: Vec<Vec<String>> = features
                .cycles()
                .all_cycles()
                .map(|cycle| cycle.iter().map(|id| format!("> {id}")).collect())
                .collect();
            Ok(cycles.join(&"> ".to_owned()))
        }
        other => panic!("another command: {other}"),
    }
}

#[test]
fn answers_are_those_of_the_cases() {
    let cases: Vec<Case> = FILES.iter().flat_map(|name| cases_of(name)).collect();
    assert!(cases.len() > 600, "{} cases are too few", cases.len());
    for case in &cases {
        let lines = answer(case).unwrap_or_else(|fault| vec![format!("!1 {fault}")]);
        assert_eq!(lines, expected(case), "{}", case.place);
    }
}
