//! docs/OUTPUT.md, held to what the command writes.
mod common;

use common::{blind, listed, told};
use std::collections::BTreeSet;
use std::fs;
use std::path::Path;

fn page() -> String {
    fs::read_to_string(Path::new(env!("CARGO_MANIFEST_DIR")).join("../../docs/OUTPUT.md")).expect("docs/OUTPUT.md")
}

/// The rows of the first table below a heading, cell by cell.
fn table(page: &str, heading: &str) -> Vec<Vec<String>> {
    let (_, below) = page.split_once(&format!("\n{heading}\n")).unwrap_or_else(|| panic!("{heading}"));
    let rows = below.lines().skip_while(|line| !line.starts_with('|')).take_while(|line| line.starts_with('|')).skip(2);
    rows.map(|row| row.trim_matches('|').split('|').map(|cell| cell.trim().to_string()).collect()).collect()
}

/// The names of a table's fields, in their order.
fn fields(heading: &str) -> Vec<String> {
    table(&page(), heading).iter().map(|row| row[0].trim_matches('`').to_string()).collect()
}

/// Every example is what the command prints.
#[test]
fn examples() {
    let page = page();
    let examples: Vec<&str> = page.split("```console\n$ blind ").skip(1).map(|rest| rest.split("```").next().unwrap()).collect();
    assert!(examples.len() >= 5);
    for example in examples {
        let (words, expected) = example.split_once('\n').expect("an example");
        let output = blind(&words.split(' ').collect::<Vec<_>>());
        assert_eq!(told(&output.stdout), expected, "blind {words}");
    }
}

#[test]
fn names_of_columns() {
    let first = fields("### The first fields of every row");
    for list in ["--stretches", "--sectors", "--values", "--totals"] {
        let rows = listed(&["--csv", list, "document01.bin"], &[]);
        let names: Vec<String> = rows.lines().next().expect("names").split(',').map(String::from).collect();
        assert_eq!(names, [first.clone(), fields(&format!("### Rows of `{list}`"))].concat());
    }
    // those that the house asked for
    let names = [first, fields("### Rows of `--stretches`")].concat();
    for name in "time site product cut elevation threshold ray azimuth first length from_m to_m kind status".split(' ') {
        assert!(names.iter().any(|found| found == name), "{name}");
    }
}

#[test]
fn statuses() {
    for row in table(&page(), "## Exit status") {
        let words: Vec<&str> = row[2].trim_matches('`').split(' ').skip(1).collect();
        assert_eq!(blind(&words).status.code().map(|code| code.to_string()), Some(row[0].clone()), "{words:?}");
    }
    assert_eq!(table(&page(), "## Exit status").len(), 3);
}

/// A JSON value; a number is kept as it is written.
#[derive(Debug, Clone, PartialEq)]
enum Json {
    Null,
    Number(String),
    Text(String),
    List(Vec<Json>),
    Object(Vec<(String, Json)>),
}

impl Json {
    fn get(&self, name: &str) -> Option<&Json> {
        let Json::Object(fields) = self else { panic!("no object: {self:?}") };
        fields.iter().find(|(found, _)| found == name).map(|(_, value)| value)
    }

    fn list(&self, name: &str) -> &[Json] {
        match self.get(name) {
            Some(Json::List(all)) => all,
            other => panic!("{name}: {other:?}"),
        }
    }

    fn names(&self) -> BTreeSet<String> {
        let Json::Object(fields) = self else { panic!("no object: {self:?}") };
        let names: BTreeSet<String> = fields.iter().map(|(name, _)| name.clone()).collect();
        assert_eq!(names.len(), fields.len(), "a name twice");
        names
    }

    /// As a field of comma-separated values.
    fn field(&self) -> String {
        match self {
            Json::Null => String::new(),
            Json::Number(text) | Json::Text(text) => text.clone(),
            other => panic!("{other:?}"),
        }
    }
}

/// Reads JSON by its grammar; what is none is a failure.
struct Reader<'a>(&'a str);

impl Reader<'_> {
    fn skip(&mut self) {
        self.0 = self.0.trim_start_matches([' ', '\n', '\t', '\r']);
    }

    fn take(&mut self, text: &str) -> bool {
        self.skip();
        let rest = self.0.strip_prefix(text);
        self.0 = rest.unwrap_or(self.0);
        rest.is_some()
    }

    fn text(&mut self) -> String {
        assert!(self.take("\""), "{:.40}", self.0);
        let mut text = String::new();
        let mut chars = self.0.chars();
        loop {
            match chars.next().expect("the end of a text") {
                '"' => break,
                '\\' => match chars.next().expect("an escape") {
                    'u' => {
                        let code: String = chars.by_ref().take(4).collect();
                        text.extend(char::from_u32(u32::from_str_radix(&code, 16).expect("a code")));
                    }
                    c => text.push(c),
                },
                c => {
                    assert!(!c.is_control());
                    text.push(c);
                }
            }
        }
        self.0 = chars.as_str();
        text
    }

    fn number(&mut self) -> String {
        let end = self.0.find(|c: char| !(c.is_ascii_digit() || "+-.e".contains(c))).unwrap_or(self.0.len());
        let (number, rest) = self.0.split_at(end);
        let digits = number.trim_start_matches('-');
        let whole = digits.split(['.', 'e']).next().expect("digits");
        assert!(
            !whole.is_empty() && (whole == "0" || !whole.starts_with('0')) && !number.ends_with('.') && !digits.contains(".e"),
            "{number}"
        );
        assert!(number.parse::<f64>().is_ok_and(f64::is_finite), "{number}");
        self.0 = rest;
        number.into()
    }

    fn value(&mut self) -> Json {
        if self.take("null") {
            return Json::Null;
        }
        if self.take("[") {
            let mut all = Vec::new();
            while !self.take("]") {
                assert!(all.is_empty() || self.take(","));
                all.push(self.value());
            }
            return Json::List(all);
        }
        if self.take("{") {
            let mut fields = Vec::new();
            while !self.take("}") {
                assert!(fields.is_empty() || self.take(","));
                let name = self.text();
                assert!(self.take(":"));
                fields.push((name, self.value()));
            }
            return Json::Object(fields);
        }
        if self.0.starts_with('"') {
            return Json::Text(self.text());
        }
        Json::Number(self.number())
    }
}

fn json(text: &str) -> Json {
    let mut reader = Reader(text);
    let value = reader.value();
    reader.skip();
    assert_eq!(reader.0, "");
    value
}

/// The objects of files, by both forms, which say the same.
fn files(words: &[&str]) -> Vec<Json> {
    let Json::List(files) = json(&told(&blind(&[&["--json"], words].concat()).stdout)) else { panic!("no list") };
    let lines = told(&blind(&[&["--json-lines"], words].concat()).stdout);
    assert_eq!(lines.lines().map(json).collect::<Vec<_>>(), files, "{words:?}");
    files
}

/// Each field that is written stands in its table, and each of a table is written somewhere.
#[test]
fn names_of_json_fields() {
    let names = |heading: &str| fields(heading).into_iter().collect::<BTreeSet<String>>();
    let mut written: [BTreeSet<String>; 4] = Default::default();
    for words in [
        &["document01.bin", "dual.bin", "cut-short.bin", "no-such-file"][..],
        &["--sectors", "ridge.bin", "dual.bin", "wind.bin", "dark.bin"],
        &["--values", "document01.bin", "dual.bin"],
        &["--totals", "ridge-full.bin"],
        &["--kind", "over", "dual.bin", "document01.bin"],
    ] {
        for file in files(words) {
            written[0].extend(file.names());
            if file.get("status") != Some(&Json::Text("ok".into())) {
                continue;
            }
            for cut in file.list("cuts") {
                written[1].extend(cut.names());
                for (at, list) in [(2, "stretches"), (3, "sectors")] {
                    if cut.get(list).is_some() {
                        cut.list(list).iter().for_each(|object| written[at].extend(object.names()));
                    }
                }
            }
        }
    }
    assert_eq!(written[0], names("### An object for each file"));
    assert_eq!(written[1], names("### An object for each cut"));
    assert_eq!(written[2], names("### Rows of `--stretches`"));
    assert_eq!(written[3], names("### Rows of `--sectors`"));
}

/// Comma-separated values and JSON say the same, field by field.
#[test]
fn both_forms_say_the_same() {
    for list in ["stretches", "sectors"] {
        for name in ["ridge.bin", "dual.bin", "wind.bin", "dark.bin"] {
            let words = [&format!("--{list}"), "--threshold", "30", name].map(String::from);
            let words: Vec<&str> =
                words.iter().map(String::as_str).filter(|word| name != "dual.bin" || !["--threshold", "30"].contains(word)).collect();
            let file = &files(&words)[0];
            let rows = told(&blind(&[&["--csv"], &words[..]].concat()).stdout);
            let mut rows = rows.lines().map(|row| row.split(',').collect::<Vec<_>>());
            let names = rows.next().expect("names");
            for cut in file.list("cuts") {
                let entries = cut.list(list);
                if entries.is_empty() {
                    assert_eq!(rows.next().expect("a row")[1], "none");
                }
                for entry in entries {
                    for (name, field) in names.iter().zip(rows.next().expect("a row")) {
                        let found = entry.get(name).or(cut.get(name)).or(file.get(name)).unwrap_or_else(|| panic!("no {name}"));
                        assert_eq!(found.field(), field, "{name}");
                    }
                }
            }
            assert_eq!(rows.next(), None);
        }
    }
}
