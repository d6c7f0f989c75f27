//! The table and the pictures of a scenario.

use crate::meter::{share, Outcome, Sample};
use crate::picture::{Chart, Series};
use crate::queue::Micros;
use crate::rule::Content;
use crate::scenario::Scenario;
use crate::setup::Bound;

/// The runs of one rule.
#[derive(Clone, Debug)]
pub struct Row {
    pub rule: &'static str,
    pub runs: Vec<Outcome>,
}

/// What a picture shows over time.
#[derive(Clone, Copy, Debug, PartialEq, Eq)]
pub enum View {
    /// How much of the content a peer has, on average.
    Content,
    /// The share of pairs of downloaders with interest.
    Interest,
    /// The copies of the rarest piece.
    Rarest,
    /// The downloaders that are there.
    Downloaders,
}

/// The rules in pictures. More lines can't be told apart.
const SHOWN: [&str; 7] =
    ["ours, 8 open", "ours", "ours, 8 open by rate", "libtorrent's order", "random", "transmission's order", "one piece a peer"];

/// The columns of a table.
const HEAD: [&str; 14] = [
    "Rule",
    "First, s",
    "Median, s",
    "Sooner, runs",
    "Last, s",
    "Last 1%, s",
    "Out of the seed, copies",
    "Interest, %",
    "Idle, %",
    "Begun, mean and most",
    "Twice, %",
    "Calls, millions",
    "Their time, s",
    "A call, ns",
];

impl View {
    /// The word in the names of files.
    pub fn word(self) -> &'static str {
        match self {
            View::Content => "content",
            View::Interest => "interest",
            View::Rarest => "rarest",
            View::Downloaders => "downloaders",
        }
    }

    fn up(self) -> &'static str {
        match self {
            View::Content => "content that a peer has, %",
            View::Interest => "pairs with interest, %",
            View::Rarest => "copies of the rarest piece",
            View::Downloaders => "downloaders",
        }
    }

    fn value(self, sample: &Sample, pieces: u32) -> f64 {
        match self {
            View::Content => share(sample.copies, u64::from(sample.peers) * u64::from(pieces)),
            View::Interest => share(sample.interested, sample.pairs),
            View::Rarest => sample.rarest.into(),
            View::Downloaders => sample.downloaders.into(),
        }
    }
}

/// The chart of the first run of each rule.
pub fn chart(scenario: &Scenario, view: View, rows: &[Row]) -> Chart {
    let series = SHOWN.iter().enumerate().filter_map(|(style, name)| {
        let row = rows.iter().find(|row| row.rule == *name)?;
        Some(Series { name: row.rule.into(), style, points: points(view, &row.runs[0], scenario.content.pieces) })
    });
    Chart { title: scenario.title.into(), across: "seconds".into(), up: view.up().into(), series: series.collect() }
}

/// Some 200 points of a run. There are none where there is no pair, or nobody beside the seed.
fn points(view: View, run: &Outcome, pieces: u32) -> Vec<(f64, f64)> {
    let step = run.samples.len() / 200 + 1;
    let last = run.samples.last().filter(|_| run.samples.len() % step != 1);
    let samples = run.samples.iter().step_by(step).chain(last);
    let is_shown = |sample: &&Sample| match view {
        View::Interest => sample.pairs > 0,
        View::Content => sample.peers > 1,
        View::Rarest | View::Downloaders => true,
    };
    let samples = samples.filter(is_shown);
    samples.map(|sample| (seconds(sample.at), view.value(sample, pieces))).collect()
}

fn seconds(time: Micros) -> f64 {
    time as f64 / 1e6
}

/// The table of all rules, as Markdown. A figure is the mean of the runs.
pub fn table(content: Content, rows: &[Row]) -> String {
    let head = format!("| {} |\n|{}\n", HEAD.join(" | "), "---|".repeat(HEAD.len()));
    rows.iter().fold(head, |table, row| table + &format!("| {} |\n", cells(content, &row.runs, row.rule, &rows[0].runs).join(" | ")))
}

/// The cells of a rule. It is compared with the runs of the first rule.
fn cells(content: Content, runs: &[Outcome], rule: &str, first: &[Outcome]) -> Vec<String> {
    let time = |percent: usize| all(runs, |run| Some(seconds(run.percentile(percent)?)));
    vec![
        rule.to_string(),
        rounded(&time(0)),
        format!("{}{}", rounded(&time(50)), range(&time(50))),
        sooner(runs, first),
        last(runs),
        mean(&all(runs, |run| Some(run.end_of_each()? / 1e6)), 2),
        copies(content, runs),
        mean(&all(runs, |run| Some(run.interest())), 1),
        mean(&all(runs, |run| Some(run.idle())), 1),
        begun(runs),
        mean(&all(runs, |run| Some(run.twice())), 2),
        mean(&all(runs, |run| Some(run.spent.calls as f64 / 1e6)), 1),
        mean(&all(runs, |run| Some(run.spent.nanoseconds as f64 / 1e9)), 1),
        mean(&all(runs, |run| Some(run.spent.nanoseconds as f64 / run.spent.calls.max(1) as f64)), 0),
    ]
}

/// The begun pieces of a downloader when it makes a request.
fn begun(runs: &[Outcome]) -> String {
    let most = runs.iter().map(|run| run.begun.most).max().unwrap_or(0);
    format!("{}, {most}", mean(&all(runs, |run| Some(run.begun())), 1))
}

/// In how many of several runs the median was less than with the first rule, in the same swarm.
fn sooner(runs: &[Outcome], first: &[Outcome]) -> String {
    let pairs =
        runs.iter().zip(first).map(|(run, other)| (run.percentile(50).unwrap_or(Micros::MAX), other.percentile(50).unwrap_or(Micros::MAX)));
    let count = pairs.filter(|(median, other)| median < other).count();
    if runs.len() > 1 {
        count.to_string()
    } else {
        String::new()
    }
}

/// When the last peer was whole. Where a run ended without that: how many peers got whole, and in how many runs nearly all did, or which pieces
/// are gone.
fn last(runs: &[Outcome]) -> String {
    let times = all(runs, |run| Some(seconds(run.percentile(100)?)));
    if !times.is_empty() {
        return rounded(&times);
    }
    let whole = |run: &Outcome| share(run.times.len() as u64, run.guests.into());
    let shares: Vec<f64> = runs.iter().map(whole).collect();
    let lived = shares.iter().filter(|&&share| share > 90.0).count();
    let missing: Vec<f64> = runs.iter().map(|run| run.missing.into()).collect();
    let rest = if lived > 0 { format!("{lived} of {} runs lived", runs.len()) } else { format!("{} pieces gone", mean(&missing, 0)) };
    format!("{}% whole; {rest}", mean(&shares, 0))
}

/// The figure of each run; none where a run has no figure.
fn all(runs: &[Outcome], figure: impl Fn(&Outcome) -> Option<f64>) -> Vec<f64> {
    runs.iter().map(figure).collect::<Option<Vec<f64>>>().unwrap_or_default()
}

fn mean(figures: &[f64], digits: usize) -> String {
    if figures.is_empty() {
        return "-".into();
    }
    format!("{:.digits$}", figures.iter().sum::<f64>() / figures.len() as f64)
}

/// The mean of times, with a digit behind the point where they are short.
fn rounded(times: &[f64]) -> String {
    mean(times, digits(times))
}

/// Times under 100 seconds have a digit behind the point.
fn digits(times: &[f64]) -> usize {
    usize::from(times.iter().sum::<f64>() < 100.0 * times.len() as f64)
}

/// The least and the greatest of several, in brackets.
fn range(figures: &[f64]) -> String {
    if figures.len() < 2 {
        return String::new();
    }
    let (least, greatest) = figures.iter().fold((f64::MAX, 0f64), |(least, greatest), &figure| (least.min(figure), greatest.max(figure)));
    let digits = digits(figures);
    format!(" ({least:.digits$} to {greatest:.digits$})")
}

/// The table of several scenarios beside each other: of each the median, and in brackets the copies that the seed had sent when all pieces were
/// out. Where not all got whole, it is what the column of the last peer says. The begun pieces are those of the first scenario.
pub fn beside(columns: &[(Scenario, Vec<Row>)]) -> String {
    let names: Vec<&str> = columns.iter().map(|(scenario, _)| scenario.name).collect();
    let head = format!("| Rule | {} | Begun, mean and most |\n|{}\n", names.join(" | "), "---|".repeat(names.len() + 2));
    let rules = columns.first().map_or(0, |(_, rows)| rows.len());
    (0..rules).fold(head, |table, place| {
        let cells = columns.iter().map(|(scenario, rows)| cell(scenario, &rows[place].runs));
        let cells = cells.chain(columns.first().map(|(_, rows)| begun(&rows[place].runs)));
        table + &format!("| {} | {} |\n", columns[0].1[place].rule, cells.collect::<Vec<_>>().join(" | "))
    })
}

/// The cell of a rule in a scenario.
fn cell(scenario: &Scenario, runs: &[Outcome]) -> String {
    if runs.iter().any(|run| run.percentile(100).is_none()) {
        return last(runs);
    }
    let medians = all(runs, |run| Some(seconds(run.percentile(50)?)));
    format!("{} [{}]", rounded(&medians), copies(scenario.content, runs))
}

/// The copies that the seeds had sent when all pieces were out.
fn copies(content: Content, runs: &[Outcome]) -> String {
    mean(&all(runs, |run| Some(run.spread?.sent as f64 / content.all_blocks() as f64)), 2)
}

/// Of each mixed swarm, what each of the two rules brought to those who follow it.
pub fn mixes(rows: &[Row]) -> String {
    let lines = rows.iter().filter_map(|row| {
        let medians: Vec<(Micros, Micros)> = row.runs.iter().map(Outcome::medians_of_mix).collect::<Option<_>>()?;
        let mixed: Vec<f64> = medians.iter().map(|&(mixed, _)| seconds(mixed)).collect();
        let rest: Vec<f64> = medians.iter().map(|&(_, rest)| seconds(rest)).collect();
        Some(format!("- {}: the median of these is {} s, and that of the others {} s.\n", row.rule, rounded(&mixed), rounded(&rest)))
    });
    lines.collect()
}

/// The three bounds in a sentence.
pub fn bounds(bounds: &[Bound]) -> String {
    let figure = |pick: fn(&Bound) -> f64| rounded(&bounds.iter().map(|bound| pick(bound) / 1e6).collect::<Vec<_>>());
    format!(
        "Bounds: {} s by the slowest line down, {} s by the lines up of seeds, {} s by all lines up.",
        figure(|bound| bound.down),
        figure(|bound| bound.seeds),
        figure(|bound| bound.all)
    )
}

#[cfg(test)]
mod tests {
    use super::*;
    use crate::begun::BegunAtRequests;
    use crate::scenario;

    fn run(times: &[Micros], guests: u32, missing: u32) -> Outcome {
        Outcome { times: times.to_vec(), guests, missing, ..Outcome::default() }
    }

    #[test]
    fn a_row_has_the_mean_of_the_runs() {
        let first = vec![run(&[2_000_000, 3_000_000, 4_000_000], 3, 0), run(&[2_000_000, 3_000_000, 4_000_000], 3, 0)];
        let mut runs = vec![run(&[1_000_000, 2_000_000, 5_000_000], 3, 0), run(&[3_000_000, 4_000_000, 6_000_000], 3, 0)];
        (runs[0].ends, runs[1].ends) = (vec![100_000, 300_000, 200_000], vec![40_000; 3]);
        let rows = [Row { rule: "one", runs: first }, Row { rule: "two", runs }];
        let table = table(Content { pieces: 1, blocks: 1 }, &rows);
        let lines: Vec<&str> = table.lines().collect();
        assert!(lines[2].starts_with("| one | 2.0 | 3.0 (3.0 to 3.0) | 0 | 4.0 | - | - |"), "{table}");
        assert!(lines[3].starts_with("| two | 2.0 | 3.0 (2.0 to 4.0) | 1 | 5.5 | 0.12 | - |"), "{table}");
        assert!(lines.iter().all(|line| line.matches('|').count() == HEAD.len() + 1), "{table}");
    }

    #[test]
    fn scenarios_stand_beside_each_other() {
        let spread = Some(crate::meter::Spread { at: 1, sent: 3 });
        let whole = Outcome { spread, requests: 2, begun: BegunAtRequests { sum: 3, most: 2 }, ..run(&[2_000_000], 1, 0) };
        let gone = Outcome { requests: 2, begun: BegunAtRequests { sum: 4, most: 5 }, ..run(&[], 1, 7) };
        let rows = |first: &Outcome, second: &Outcome| {
            let row = |rule, run: &Outcome| Row { rule, runs: vec![run.clone()] };
            vec![row("one", first), row("two", second)]
        };
        let [mut small, fades] = ["small", "fades"].map(|name| scenario::named(name).unwrap());
        small.content = Content { pieces: 1, blocks: 2 };
        let table = beside(&[(small, rows(&whole, &gone)), (fades, rows(&gone, &whole))]);
        let expected = "| Rule | small | fades | Begun, mean and most |\n|---|---|---|---|\n\
            | one | 2.0 [1.50] | 0% whole; 7 pieces gone | 1.5, 2 |\n| two | 0% whole; 7 pieces gone | 2.0 [0.00] | 2.0, 5 |\n";
        assert_eq!(table, expected);
    }

    #[test]
    fn a_mixed_swarm_tells_both_medians() {
        let mixed_in = vec![2_000_000, 5_000_000, 9_000_000];
        let times = vec![1_000_000, 2_000_000, 4_000_000, 5_000_000, 7_000_000, 9_000_000];
        let runs = vec![Outcome { mixed_in, ..run(&times, 6, 0) }];
        let rows = [Row { rule: "mix", runs }, Row { rule: "pure", runs: vec![run(&[1], 1, 0)] }];
        assert_eq!(mixes(&rows), "- mix: the median of these is 5.0 s, and that of the others 4.0 s.\n");
    }

    #[test]
    fn a_swarm_that_stopped_tells_what_is_gone() {
        let runs = vec![run(&[1_000_000], 4, 7), run(&[], 4, 8)];
        assert_eq!(last(&runs), "12% whole; 8 pieces gone");
        assert_eq!(last(&runs[..1]), "25% whole; 7 pieces gone");
    }

    #[test]
    fn a_swarm_that_lived_in_some_runs_tells_in_how_many() {
        let runs = vec![run(&[1_000_000; 20], 20, 0), run(&[1_000_000; 19], 20, 9), run(&[], 20, 5)];
        assert_eq!(last(&runs), "65% whole; 2 of 3 runs lived");
    }
}
