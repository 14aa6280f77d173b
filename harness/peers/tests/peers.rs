//! The page reader against xmllint and jing, which judge the same schemas as RELAX NG and the same pages as XML.
//!
//! A page is valid (answer 0), one element and not derived (14; the peers: invalid), or no document: not balanced (11 and 13), or
//! without exactly one outermost element (14 too; the peers: not well-formed). Pages that nest past 16 are refused by the page reader
//! alone (12): they are left out and counted.
//!
//! jing has to agree on every page that it is given. Of those that are not well-formed it is given one of each kind a group (not
//! balanced, empty, several elements side by side), since it stops there; xmllint is given all. Under an ambiguous schema (some state has two rules of the same name) both programs may need time
//! exponential in the nesting, so that pages of random schemas of that kind that nest past 6 (2 to 5 where a name has many rules)
//! are left out and counted; and libxml2 is known to turn down some valid pages there. So every word of xmllint on a page of a
//! deterministic schema has to agree, while under ambiguous ones differences from jing and the page reader are counted and printed.
//! xmllint has a time limit for each schema; pages that it does not come to are counted and printed too.
//! `PEERS_GROUPS` sets another number of groups.
use peers::pages::{balanced, changed, nested, torn, unruly, Sampler};
use peers::schema::{named, random, trouble, Schema};
use peers::tools::{installed, jing, xmllint, Verdict};
use peers::{markup, relaxng};
use seeds::Rng;
use std::fs;
use std::path::PathBuf;
use std::time::Duration;

/// Groups of schemas, each one grammar; schemas grow with the group's number up to the eighth.
const GROUPS: usize = 6;
const SCHEMAS: usize = 28;

/// The longest expressions of a random schema, others are drawn again: xmllint was seen not to come through the pages of some in time.
const LONGEST: usize = 2_000;

/// How many pages of each kind a schema has.
const PAGES: usize = 8;

/// For jing on a whole group, and for xmllint on one schema's pages.
const LONG: Duration = Duration::from_secs(120);
const SHORT: Duration = Duration::from_secs(1);

/// A page under schema k of its group, the file that it stands in, and what the page reader says of it.
struct Case {
    k: usize,
    page: Vec<u8>,
    file: String,
    expected: Verdict,
    balanced: bool,
}

/// A group: its schemas, its cases, and how many pages nest too deep to be one: past 16, or past
/// what the peers can afford under an ambiguous schema.
struct Group {
    schemas: Vec<Schema>,
    cases: Vec<Case>,
    deep: usize,
    steep: usize,
}

/// A folder of its own that goes when the test ends.
struct Folder(PathBuf);

impl Folder {
    fn new() -> Folder {
        let name = format!("ujthanor-peers-{}", std::process::id());
        let path = std::env::temp_dir().join(name);
        fs::create_dir_all(&path).unwrap();
        Folder(path)
    }
}

impl Drop for Folder {
    fn drop(&mut self) {
        let _ = fs::remove_dir_all(&self.0);
    }
}

/// The page reader's answer as a verdict, and whether it says that the page is balanced; none where the page nests too deep.
fn read(file: &[u8], page: &[u8]) -> Option<(Verdict, bool)> {
    match ujthanor::calls::page(file, page).answer {
        0 => Some((Verdict::Valid, true)),
        14 if markup::has_one_root(page) => Some((Verdict::Invalid, true)),
        14 => Some((Verdict::NotWellFormed, true)),
        11 | 13 => Some((Verdict::NotWellFormed, false)),
        12 => None,
        answer => panic!("answer {answer} on {page:?} under {file:?}"),
    }
}

/// The schemas of a group: those that the rules name in the first, then random ones, every second of them deterministic.
fn schemas(group: usize) -> Vec<Schema> {
    let size = group % 8;
    let mut numbers = Rng::new(1000 + group as u64);
    let mut schemas = if group == 0 { named() } else { Vec::new() };
    if group == 0 {
        schemas.push(trouble().0);
    }
    while schemas.len() < SCHEMAS {
        let states = 1 + numbers.below((size + 2).min(8)) as u8;
        let names = 1 + numbers.below(2 + size / 2) as u8;
        let rules = 1 + numbers.below(4 * (size + 1));
        let deterministic = schemas.len() % 2 == 0;
        let schema = random(&mut numbers, states, names, rules, deterministic);
        if relaxng::size(&schema) <= LONGEST {
            schemas.push(schema);
        }
    }
    schemas
}

/// Pages of every kind under one schema.
fn pages(schema: &Schema, numbers: &mut Rng) -> Vec<Vec<u8>> {
    let deepest = schema.deepest;
    let sampler = Sampler::new(schema, deepest);
    let names = schema.names;
    let mut pages = Vec::new();
    for _ in 0..PAGES {
        let tags = numbers.below(24);
        let valid = sampler.page(numbers);
        let base = valid.unwrap_or_else(|| {
            let inside = balanced(numbers, names, tags, deepest - 1);
            nested(numbers, names, &inside, 1)
        });
        let near = changed(numbers, names, &base);
        pages.push(changed(numbers, names, &near));
        pages.push(near);
        pages.push(torn(numbers, names, &base));
        pages.push(nested(numbers, names, &base, deepest));
        pages.push(match numbers.once_in(2) {
            true => balanced(numbers, names, tags, deepest),
            false => unruly(numbers, names, tags),
        });
        pages.extend(sampler.row(numbers));
        pages.push(base);
    }
    pages.push(Vec::new());
    if schema.label == "trouble" {
        pages.push(trouble().1);
    }
    pages
}

/// Makes a group, and writes its grammar and its pages into the folder.
fn group(number: usize, folder: &Folder) -> Group {
    let mut numbers = Rng::new(number as u64);
    let schemas = schemas(number);
    let (mut cases, mut deep, mut steep) = (Vec::new(), 0, 0);
    for (k, schema) in schemas.iter().enumerate() {
        let template = schema.file();
        for page in pages(schema, &mut numbers) {
            let Some((expected, balanced)) = read(&template, &page) else {
                deep += 1;
                continue;
            };
            if markup::nesting(&page) > schema.deepest {
                steep += 1;
                continue;
            }
            let file = format!("p{}.xml", cases.len());
            fs::write(folder.0.join(&file), markup::xml(k, &page)).unwrap();
            cases.push(Case {
                k,
                page,
                file,
                expected,
                balanced,
            });
        }
    }
    fs::write(folder.0.join("g.rng"), relaxng::grammar(&schemas)).unwrap();
    Group {
        schemas,
        cases,
        deep,
        steep,
    }
}

impl Group {
    fn chosen(&self, choice: impl Fn(&Case) -> bool) -> Vec<&Case> {
        self.cases.iter().filter(|c| choice(c)).collect()
    }

    fn show(&self, case: &Case) -> String {
        let s = &self.schemas[case.k];
        format!(
            "page {:?} under {:?} ending {:?} (group's schema {}: {}): the page reader says {:?}",
            case.page, s.rules, s.endings, case.k, s.label, case.expected
        )
    }
}

fn files(cases: &[&Case]) -> Vec<String> {
    cases.iter().map(|c| c.file.clone()).collect()
}

/// jing on every well-formed page, and in runs of their own on one of each kind that is not: all must agree. How many it judged.
fn by_jing(group: &Group, folder: &Folder) -> usize {
    let first = |kind: fn(&Case) -> bool| {
        let unformed = group.chosen(|c| c.expected == Verdict::NotWellFormed && kind(c));
        unformed.into_iter().take(1)
    };
    let formed = group.chosen(|c| c.expected != Verdict::NotWellFormed);
    let runs: [Vec<&Case>; 3] = [
        formed.into_iter().chain(first(|c| !c.balanced)).collect(),
        first(|c| c.page.is_empty()).collect(),
        first(|c| c.balanced && !c.page.is_empty()).collect(),
    ];
    for cases in &runs {
        let verdicts = jing(&folder.0, "g.rng", &files(cases), LONG);
        for (case, verdict) in cases.iter().zip(verdicts) {
            assert_eq!(case.expected, verdict, "jing differs: {}", group.show(case));
        }
    }
    runs.concat().len()
}

/// What xmllint makes of the pages of some schemas.
#[derive(Default)]
struct Told {
    alike: usize,
    turned_down: usize,
    otherwise: usize,
    not_in_time: usize,
}

impl Told {
    fn add(&mut self, expected: Verdict, verdict: Option<Verdict>) {
        match (expected, verdict) {
            (_, None) => self.not_in_time += 1,
            (_, Some(verdict)) if expected == verdict => self.alike += 1,
            (Verdict::Valid, Some(Verdict::Invalid)) => self.turned_down += 1,
            _ => self.otherwise += 1,
        }
    }
}

/// xmllint on every page of the deterministic schemas or of the ambiguous ones, in a run for each schema.
/// Under a deterministic schema every word of it has to agree.
fn by_xmllint(group: &Group, folder: &Folder, deterministic: bool) -> Told {
    let mut told = Told::default();
    let chosen =
        (0..group.schemas.len()).filter(|&k| group.schemas[k].is_deterministic() == deterministic);
    for k in chosen {
        let cases = group.chosen(|c| c.k == k);
        let verdicts = xmllint(&folder.0, "g.rng", &files(&cases), SHORT);
        for (case, verdict) in cases.iter().zip(verdicts) {
            let differs = verdict.is_some_and(|v| v != case.expected);
            assert!(
                !(deterministic && differs),
                "xmllint says {verdict:?}: {}",
                group.show(case)
            );
            told.add(case.expected, verdict);
        }
    }
    told
}

/// Runs one group past the programs that are there, and tells what came of it.
fn compare(number: usize, folder: &Folder, with_xmllint: bool, with_jing: bool) -> [usize; 3] {
    let group = group(number, folder);
    let count = |v| group.chosen(|c| c.expected == v).len();
    let kinds = [Verdict::Valid, Verdict::Invalid, Verdict::NotWellFormed].map(count);
    let rootless = group.chosen(|c| c.expected == Verdict::NotWellFormed && c.balanced);
    println!(
        "group {number}: {} schemas; pages: {} valid, {} invalid, {} not well-formed ({} of them balanced); left out: {} nest past 16, {} past 2 to 6 under ambiguous schemas",
        group.schemas.len(), kinds[0], kinds[1], kinds[2], rootless.len(), group.deep, group.steep
    );
    assert!(rootless.len() > 100);
    if with_jing {
        println!("  jing agrees on all of {} pages", by_jing(&group, folder));
    }
    if with_xmllint {
        let Told {
            alike, not_in_time, ..
        } = by_xmllint(&group, folder, true);
        println!("  xmllint agrees on all of {alike} pages of deterministic schemas; {not_in_time} not judged in time");
        assert!(alike > 8 * not_in_time);
        let a = by_xmllint(&group, folder, false);
        println!(
            "  under ambiguous ones: {} alike, {} valid ones turned down, {} otherwise, {} not in time",
            a.alike, a.turned_down, a.otherwise, a.not_in_time
        );
    }
    kinds
}

#[test]
fn peers_agree() {
    let [with_xmllint, with_jing] = ["xmllint", "jing"].map(|program| {
        let there = installed(program);
        if !there {
            println!("skipped: {program} is not installed");
        }
        there
    });
    let groups = std::env::var("PEERS_GROUPS").map_or(GROUPS, |n| n.parse().unwrap());
    let folder = Folder::new();
    let mut all = [0; 3];
    for number in 0..groups {
        let kinds = compare(number, &folder, with_xmllint, with_jing);
        all = [0, 1, 2].map(|i| all[i] + kinds[i]);
    }
    // A comparison says something only where each verdict is frequent.
    assert!(all.iter().all(|n| *n > 100 * groups), "{all:?}");
}
