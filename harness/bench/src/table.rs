//! Markdown tables of ratios, printed as docs/PERFORMANCE.md has them. Times, which hold for one machine and one hour only, go to the
//! error output.

/// The heading of a section.
pub fn section(title: &str, note: &str) {
    println!("\n### {title}\n\n{note}\n");
    eprintln!("\n{title}");
}

pub fn head(columns: &[&str]) {
    println!("| {} |", columns.join(" | "));
    println!("|{}", "---|".repeat(columns.len()));
}

pub fn row(cells: &[String]) {
    println!("| {} |", cells.join(" | "));
}

/// A ratio with two digits that count.
pub fn ratio(over: f64, under: f64) -> String {
    let r = over / under;
    match r {
        r if r >= 9.95 => format!("{r:.0}"),
        r if r >= 0.995 => format!("{r:.1}"),
        r => format!("{r:.2}"),
    }
}

/// A time in the unit that suits it.
pub fn time(nanoseconds: f64) -> String {
    match nanoseconds {
        t if t < 1e3 => format!("{t:.1} ns"),
        t if t < 1e6 => format!("{:.1} µs", t / 1e3),
        t if t < 1e9 => format!("{:.1} ms", t / 1e6),
        t => format!("{:.1} s", t / 1e9),
    }
}

/// A table of the library against the plain implementation, and of each against its own first row, which shows how a cost grows.
pub struct Growth {
    first: Option<[f64; 2]>,
}

impl Growth {
    pub fn new(columns: &[&str]) -> Growth {
        let ratios = [
            "library / plain",
            "library / its first row",
            "plain / its first row",
        ];
        head(&[columns, &ratios].concat());
        Growth { first: None }
    }

    /// The next row is the first of those that follow it.
    pub fn afresh(&mut self) {
        self.first = None;
    }

    pub fn row(&mut self, cells: &[String], times: [f64; 2]) {
        let [ours, theirs] = times;
        let first = *self.first.get_or_insert(times);
        let ratios = [
            ratio(ours, theirs),
            ratio(ours, first[0]),
            ratio(theirs, first[1]),
        ];
        row(&[cells, &ratios].concat());
        let label = cells.join(", ");
        eprintln!("  {label}: library {}, plain {}", time(ours), time(theirs));
    }
}
