//! What is kept and said where every end has a proof and the proofs cannot be merged into one.

use std::path::Path;

use crate::arguments::in_shell;
use crate::certify::Refuted;
use crate::files::TEXT_LIMIT;
use crate::json::Json;
use crate::names::Names;
use crate::outcome::{Outcome, Status};
use crate::outputs::Outputs;
use crate::page::{Again, Page};

/// How the names of files begin that are kept in a folder.
pub const KEPT: [&str; 2] = ["program", "end-"];

/// The program, the tree, each end's path with its proof, which is accepted, and why they are not one.
pub struct Ends {
    pub program: Vec<u8>,
    pub tree: Vec<u16>,
    pub ends: Vec<(Vec<i32>, Refuted)>,
    pub why: String,
}

impl Ends {
    /// What is certified and what is not, in sentences.
    fn certified(&self) -> Vec<String> {
        let count = self.ends.len();
        vec![
            format!("there is no one proof of the program: {}", self.why),
            format!(
                "certified: of each of the {count} ends, that the program with the constraints of its path has no answer set; the check has accepted a proof of it"
            ),
            String::from(
                "not certified by the library: that the ends together are the whole program. It follows from how the tree is made: each split has a side that demands its \
atom and a side that forbids it, and an answer set of the program that meets the constraints of a path is one of that end's program",
            ),
        ]
    }

    /// The answer, with what each end is and how long its proof.
    fn outcome(&self, names: &Names, kept: Option<&Path>) -> Outcome {
        let count = self.ends.len();
        let mut words = self.certified();
        words.push(match kept {
            Some(folder) => format!("kept are the tree and of each end its program and its proof: {}", self.again(folder)[0]),
            None => String::from("-o DIR keeps the tree and of each end its program and its proof"),
        });
        for (place, (path, end)) in self.ends.iter().enumerate() {
            let long = if end.proof.text.len() > TEXT_LIMIT { " (the check for proofs of any length)" } else { "" };
            let path: Vec<String> = path.iter().map(|literal| by_name(*literal, names)).collect();
            words.push(format!("end {}, {}: {}, {} bytes{long}", place + 1, path.join(", "), end.checked.verdict, end.proof.text.len()));
        }
        let tree = self.tree.iter().map(|number| Json::Number(i64::from(*number))).collect();
        let fields = vec![
            ("verdict", Json::text("inconsistent in ends")),
            ("tree", Json::List(tree)),
            ("ends", Json::List(self.ends.iter().map(end_fields).collect())),
            ("reason", Json::text(&self.why)),
        ];
        Outcome { status: Status::Good, line: format!("inconsistent in {count} ends"), words, fields }
    }

    /// The answer, and its page.
    pub fn told(&self, question: &'static str, names: &Names, kept: Option<&Path>) -> (Outcome, Page) {
        let again = kept.map_or(Again::With("-o DIR"), |folder| Again::Calls(self.again(folder)));
        let page = Page { certified: self.certified(), again, ..Page::empty(question, "There is no answer set.") };
        (self.outcome(names, kept), page)
    }

    /// Keeps the program, the tree, and each end's program with its proof, in the folder of -o.
    pub fn keep(&self, outputs: &mut Outputs) {
        outputs.put("program.aspif", &self.program);
        outputs.put("program.tree", format!("{}\n", self.tree_text()).as_bytes());
        self.ends.iter().enumerate().for_each(|(place, (_, end))| outputs.proof(&format!("end-{}", place + 1), end));
    }

    /// The calls that check again what is kept in a folder.
    fn again(&self, folder: &Path) -> Vec<String> {
        let at = |name: String| in_shell(&folder.join(name).to_string_lossy());
        let end = |place: usize, ending: &str| at(format!("end-{place}.{ending}"));
        let places = 1..=self.ends.len();
        let checks = places.clone().map(|place| format!("aspdrupe check {} {}", end(place, "aspif"), end(place, "drupe")));
        let ends: String = places.clone().map(|place| format!(" {}", end(place, "drupe"))).collect();
        checks.chain([format!("aspdrupe tree {} {}{ends}", at(String::from("program.aspif")), self.tree_text())]).collect()
    }

    fn tree_text(&self) -> String {
        self.tree.iter().map(u16::to_string).collect::<Vec<_>>().join(",")
    }
}

fn by_name(literal: i32, names: &Names) -> String {
    format!("{}{}", if literal < 0 { "not " } else { "" }, names.of(literal.abs()))
}

fn end_fields((path, end): &(Vec<i32>, Refuted)) -> Json {
    let path = path.iter().map(|literal| Json::Number(i64::from(*literal))).collect();
    let mut fields = vec![("path", Json::List(path)), ("check", Json::Text(end.checked.verdict.to_string()))];
    fields.extend(end.checked.long.map(|_| ("service", Json::text("check_long"))));
    fields.extend([
        ("lines", Json::count(end.proof.lines)),
        ("bytes", Json::count(end.proof.text.len())),
        ("store", Json::count(end.proof.words)),
    ]);
    Json::Object(fields)
}
