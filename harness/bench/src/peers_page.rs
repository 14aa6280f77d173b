//! A page against xmllint, jing and expat, which read the same page as markup.
use crate::expat::Expat;
use crate::files::Set;
use crate::sets::{page_schema, A, BODY, DIV, HEAD, HTML, LI, P, TITLE, UL};
use crate::table::{head, ratio, row, section, time};
use crate::timing::{best, job, Job};
use peers::schema::Schema;
use peers::{markup, relaxng, tools};
use seeds::Rng;
use std::fs;
use std::hint::black_box;
use std::path::{Path, PathBuf};
use std::process::{Command, Stdio};
use std::time::Instant;

/// A valid page of about so many tags, nested at most 15 deep.
fn page(tags: usize) -> Vec<u8> {
    let mut numbers = Rng::new(tags as u64);
    let mut page = vec![HTML, HEAD, TITLE, 32 + TITLE, 32 + HEAD, BODY];
    while page.len() < tags {
        let mut open = vec![DIV; numbers.below(10)];
        if numbers.once_in(3) {
            open.extend([UL, LI]);
        }
        open.push(P);
        page.extend(&open);
        for _ in 0..numbers.below(4) {
            page.extend([A, 32 + A]);
        }
        page.extend(open.iter().rev().map(|a| 32 + a));
    }
    page.extend([32 + BODY, 32 + HTML]);
    page
}

fn as_schema(set: &Set) -> Schema {
    Schema {
        label: "page".to_string(),
        names: set.names,
        states: set.states,
        rules: set.schema.iter().copied().collect(),
        endings: set.endings.iter().copied().collect(),
        deepest: 16,
    }
}

/// The best time of a program over a file, in nanoseconds; it must find the file valid.
fn run(folder: &Path, program: &[&str], file: &str) -> f64 {
    let mut best = f64::MAX;
    for _ in 0..5 {
        let begun = Instant::now();
        let mut command = Command::new(program[0]);
        command.args(&program[1..]).arg(file).current_dir(folder);
        let status = command
            .stdout(Stdio::null())
            .stderr(Stdio::null())
            .status()
            .unwrap();
        assert!(status.success(), "{program:?} {file}");
        best = best.min(begun.elapsed().as_nanos() as f64);
    }
    best
}

/// The folder with the grammar, the page and a tiny page.
fn folder(set: &Set, text: &str) -> PathBuf {
    let folder = std::env::temp_dir().join(format!("ujthanor-bench-{}", std::process::id()));
    fs::create_dir_all(&folder).unwrap();
    fs::write(folder.join("g.rng"), relaxng::grammar(&[as_schema(set)])).unwrap();
    fs::write(folder.join("page.xml"), text).unwrap();
    fs::write(folder.join("tiny.xml"), markup::xml(0, &page(0))).unwrap();
    folder
}

fn told(label: &str, tags: usize, ours: f64, theirs: f64) {
    row(&[label.to_string(), ratio(theirs, ours)]);
    let each = time(theirs / tags as f64);
    eprintln!("  {label}: {}, a tag {each}", time(theirs));
}

/// The programs, less what they take for a tiny page.
fn programs(folder: &Path, tags: usize, ours: f64) {
    for (label, program) in [
        (
            "xmllint with RELAX NG",
            vec!["xmllint", "--noout", "--relaxng", "g.rng"],
        ),
        ("xmllint, parsing alone", vec!["xmllint", "--noout"]),
        ("jing", vec!["jing", "g.rng"]),
    ] {
        if !tools::installed(program[0]) {
            println!("| {label} | skipped: not installed |");
            continue;
        }
        let whole = run(folder, &program, "page.xml");
        told(label, tags, ours, whole - run(folder, &program, "tiny.xml"));
    }
}

pub fn against_peers() {
    let set = page_schema();
    let (file, page) = (set.bytes(), page(400_000));
    let text = markup::xml(0, &page);
    section(
        "A page against other programs",
        &format!(
            "{} tags, nested at most 15 deep, {:.1} MB as markup, a schema of 9 rules and 8 states, which is deterministic. The library \
             reads a byte a tag, the others read markup. From xmllint and jing the time for a page of 8 tags (start-up, compiling the \
             schema) is subtracted.",
            page.len(),
            text.len() as f64 / 1e6
        ),
    );
    assert_eq!(ujthanor::page(&file, &page), Ok(()));
    let mut jobs: Vec<Job> = vec![
        job(|| ujthanor::calls::page(black_box(&file), black_box(&page))),
        job(|| plain::page(black_box(&file), black_box(&page))),
    ];
    let expat = Expat::open();
    if let Some(expat) = &expat {
        jobs.push(Box::new(|| assert!(expat.parses(black_box(&text)))));
    }
    let times = best(jobs);
    head(&["reader", "its time / the library's"]);
    told("library", page.len(), times[0], times[0]);
    told("plain", page.len(), times[0], times[1]);
    match times.get(2) {
        Some(t) => told("expat, parsing alone", page.len(), times[0], *t),
        None => println!("| expat | skipped: no libexpat.so.1 |"),
    }
    let folder = folder(&set, &text);
    programs(&folder, page.len(), times[0]);
    fs::remove_dir_all(folder).unwrap();
}
