//! Runs xmllint and jing over many files at once, and reads what they say of each.
use std::collections::HashMap;
use std::fs;
use std::path::Path;
use std::process::{Child, Command, Stdio};
use std::thread::sleep;
use std::time::{Duration, Instant};

/// In the order in which a worse word on a file outdoes a better one.
#[derive(Clone, Copy, Debug, PartialEq, Eq, PartialOrd, Ord)]
pub enum Verdict {
    Valid,
    Invalid,
    NotWellFormed,
}

/// Is the program found on the path?
pub fn installed(program: &str) -> bool {
    let path = std::env::var_os("PATH").unwrap_or_default();
    std::env::split_paths(&path).any(|folder| folder.join(program).is_file())
}

/// Waits, and ends the program where the time is over.
fn wait(mut run: Child, limit: Duration) {
    let begun = Instant::now();
    while run.try_wait().unwrap().is_none() {
        if begun.elapsed() > limit {
            run.kill().unwrap();
            run.wait().unwrap();
            return;
        }
        sleep(Duration::from_millis(2));
    }
}

/// Everything the program prints within the time when it judges these files of the folder.
fn printed(
    folder: &Path,
    program: &str,
    options: &[&str],
    files: &[String],
    limit: Duration,
) -> String {
    let told = folder.join("told");
    let out = fs::File::create(&told).unwrap();
    let mut command = Command::new(program);
    command.args(options).args(files).current_dir(folder);
    command
        .stdout(Stdio::from(out.try_clone().unwrap()))
        .stderr(Stdio::from(out));
    wait(command.spawn().unwrap(), limit);
    String::from_utf8_lossy(&fs::read(&told).unwrap()).into_owned()
}

/// Each file's verdict by xmllint, which says one for every file; none where the time was over before.
pub fn xmllint(
    folder: &Path,
    grammar: &str,
    files: &[String],
    limit: Duration,
) -> Vec<Option<Verdict>> {
    let options = ["--noout", "--relaxng", grammar];
    let text = printed(folder, "xmllint", &options, files, limit);
    let mut told = HashMap::new();
    for line in text.lines() {
        if let Some(file) = line.strip_suffix(" validates") {
            told.insert(file, Verdict::Valid);
        } else if let Some(file) = line.strip_suffix(" fails to validate") {
            told.insert(file, Verdict::Invalid);
        } else if let Some((place, _)) = line.split_once(": parser error : ") {
            told.insert(place.split(':').next().unwrap(), Verdict::NotWellFormed);
        }
    }
    files
        .iter()
        .map(|f| told.get(f.as_str()).copied())
        .collect()
}

/// The file and the verdict of one line of jing's. Of an empty file it says no name; it stops there, so that it is the last.
fn jing_line<'a>(line: &'a str, last: &'a str) -> (&'a str, Verdict) {
    let verdict = match line {
        l if l.starts_with("fatal: ") => return (last, Verdict::NotWellFormed),
        l if l.contains(": fatal: ") => Verdict::NotWellFormed,
        l if l.contains(": error: ") => Verdict::Invalid,
        _ => panic!("jing says: {line}"),
    };
    let path = line.split(':').next().unwrap();
    (path.rsplit('/').next().unwrap(), verdict)
}

/// Each file's verdict by jing, which names only the files that it turns down and stops at the first that is not well-formed.
/// So the last file, and no other, has to be one that is not: jing's word on it shows that it came through all the others.
pub fn jing(folder: &Path, grammar: &str, files: &[String], limit: Duration) -> Vec<Verdict> {
    let text = printed(folder, "jing", &[grammar], files, limit);
    let mut told: HashMap<&str, Verdict> =
        files.iter().map(|f| (f.as_str(), Verdict::Valid)).collect();
    let last = files.last().map_or("", |f| f.as_str());
    for line in text.lines().filter(|l| !l.starts_with("[warning]")) {
        let (file, verdict) = jing_line(line, last);
        let known = told.get_mut(file);
        let known = known.unwrap_or_else(|| panic!("jing says: {line}"));
        *known = verdict.max(*known);
    }
    let verdicts: Vec<Verdict> = files.iter().map(|f| told[f.as_str()]).collect();
    let stop = verdicts.iter().position(|v| *v == Verdict::NotWellFormed);
    assert_eq!(
        stop,
        Some(files.len() - 1),
        "jing has to stop at the last file and at no other"
    );
    verdicts
}
