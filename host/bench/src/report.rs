//! The tables that are printed.

/// What a figure is to stay within.
#[derive(Clone, Copy)]
pub enum Limit {
    /// The library's time divided by that of the program of this name.
    Beside(&'static str, f64),
    /// The library's time in milliseconds.
    Milliseconds(f64),
}

/// The programs of the tables, and how many figures were above their limit so far. The library is
/// the first program.
pub struct Report {
    programs: Vec<&'static str>,
    above: usize,
}

impl Report {
    /// A report on these programs.
    pub fn new(programs: Vec<&'static str>) -> Report {
        Report { programs, above: 0 }
    }

    /// Prints the heading of the table of calls.
    pub fn calls(&self) {
        let names: String = self
            .programs
            .iter()
            .map(|name| format!(" {name} |"))
            .collect();
        println!("| ns per call |{names} limit | |");
        println!("|---|{}---|---|", "---:|".repeat(self.programs.len()));
    }

    /// Prints the line of a call: the times of the programs that have it, with the library's
    /// divided by each, and whether it is within each of its limits.
    pub fn call(&mut self, name: &str, times: &[Option<f64>], limits: &[Limit]) {
        let library = times[0].expect("the library has every call");
        let cell = |time: &Option<f64>| match time {
            None => " |".to_string(),
            Some(time) => format!(" {time:.0} ({:.2}) |", library / time),
        };
        let others: String = times[1..].iter().map(cell).collect();
        let (mut most_of_each, mut verdicts) = (Vec::new(), Vec::new());
        for limit in limits {
            let (most, within) = match *limit {
                Limit::Beside(other, most) => {
                    let place = self.programs.iter().position(|&name| name == other);
                    let time = place.and_then(|place| times[place]);
                    let ratio = library / time.expect("the program has the call");
                    (format!("{most} × {other}"), ratio <= most)
                }
                Limit::Milliseconds(most) => (format!("{most} ms"), library <= most * 1_000_000.0),
            };
            most_of_each.push(most);
            verdicts.push(self.verdict(within));
        }
        let (limits, verdicts) = (most_of_each.join(", "), verdicts.join(", "));
        println!("| {name} | {library:.0} |{others} {limits} | {verdicts} |");
    }

    /// Prints the heading of the table of times per row, a column for each number of rows.
    pub fn rows(&self, row_counts: &[usize]) {
        let counts: String = row_counts.iter().map(|rows| format!(" {rows} |")).collect();
        println!("\n| ns per row |{counts} greatest / least | limit | |");
        println!("|---|{}---:|---:|---|", "---:|".repeat(row_counts.len()));
    }

    /// Prints the line of a call in the table of times per row.
    pub fn per_row(&mut self, name: &str, times: &[f64], limit: Option<f64>) {
        let least = times.iter().copied().fold(f64::INFINITY, f64::min);
        let greatest = times.iter().copied().fold(0.0, f64::max);
        let spread = greatest / least;
        let (limit, verdict) = match limit {
            None => (String::new(), ""),
            Some(most) => (format!("{most}"), self.verdict(spread <= most)),
        };
        let times: String = times.iter().map(|time| format!(" {time:.2} |")).collect();
        println!("| {name} |{times} {spread:.2} | {limit} | {verdict} |");
    }

    /// How many figures were above their limit.
    pub fn above(&self) -> usize {
        self.above
    }

    fn verdict(&mut self, within: bool) -> &'static str {
        if within {
            return "ok";
        }
        self.above += 1;
        "above"
    }
}
