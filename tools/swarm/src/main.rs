//! The command: runs scenarios, prints their tables, and writes them into the page.

use std::error::Error;
use std::path::{Path, PathBuf};
use std::process::ExitCode;
use std::time::Instant;
use std::{env, fs};
use swarm::page;
use swarm::report::{beside, bounds, chart, mixes, table, Row};
use swarm::rules::{self, Chooser};
use swarm::scenario::{self, Scenario};
use swarm::swarm::run;

const USAGE: &str = "usage: swarm list
       swarm run SCENARIO [--rule NAME].. [--guests N] [--pieces N] [--blocks N] [--runs N]
       swarm compare SCENARIO.. [the same options]
       swarm page SCENARIO..

list names the scenarios and the rules. run prints the table of a scenario, in another size if one is given. The rule
'all' stands for all of them. compare prints the medians of several scenarios beside each other.
page runs scenarios at full size, and writes their tables and pictures into docs.";

type Fallible<T> = Result<T, Box<dyn Error>>;

fn main() -> ExitCode {
    let words: Vec<String> = env::args().skip(1).collect();
    match command(&words.iter().map(String::as_str).collect::<Vec<_>>()) {
        Ok(()) => ExitCode::SUCCESS,
        Err(error) => {
            eprintln!("swarm: {error}");
            ExitCode::FAILURE
        }
    }
}

fn command(words: &[&str]) -> Fallible<()> {
    match words {
        ["list"] => {
            scenario::ALL.iter().for_each(|scenario| println!("scenario {:9} {}", scenario.name, scenario.title));
            rules::all().iter().chain(&rules::mixes()).chain(&rules::rushes()).for_each(|rule| println!("rule {}", rule.name));
            Ok(())
        }
        ["run", name, options @ ..] => {
            let (scenario, rules) = sized(named(name)?, options)?;
            println!("{}", played(&scenario, &rules)?.1);
            Ok(())
        }
        ["compare", words @ ..] => {
            let options = words.iter().position(|word| word.starts_with("--")).unwrap_or(words.len());
            println!("{}", compared(&words[..options], &words[options..])?);
            Ok(())
        }
        ["page", names @ ..] if !names.is_empty() => names.iter().try_for_each(|name| write_page(&named(name)?)),
        _ => Err(USAGE.into()),
    }
}

fn named(name: &str) -> Fallible<Scenario> {
    scenario::named(name).ok_or_else(|| format!("no scenario is named {name}").into())
}

/// The scenario in the size that the options say, and the rules that they name.
fn sized(mut scenario: Scenario, options: &[&str]) -> Fallible<(Scenario, Vec<Chooser>)> {
    let mut chosen = Vec::new();
    for pair in options.chunks(2) {
        let &[option, value] = pair else { return Err(USAGE.into()) };
        match option {
            "--rule" if value == "all" => chosen.extend(all_rules()),
            "--rule" => chosen.push(rules::named(value).ok_or_else(|| format!("no rule is named {value}"))?),
            "--guests" => scenario.guests = value.parse()?,
            "--pieces" => scenario.content.pieces = value.parse()?,
            "--blocks" => scenario.content.blocks = value.parse()?,
            "--runs" => scenario.runs = value.parse()?,
            _ => return Err(USAGE.into()),
        }
    }
    let is_possible =
        scenario.guests > 0 && scenario.content.pieces > 0 && (1..=64).contains(&scenario.content.blocks) && scenario.runs > 0;
    if !is_possible {
        return Err("guests, pieces and runs are at least 1, and a piece has 1 to 64 blocks".into());
    }
    let rules = if chosen.is_empty() { usual_rules(&scenario) } else { chosen };
    Ok((scenario, rules))
}

/// All rules but those that make the requests of another one.
fn all_rules() -> impl Iterator<Item = Chooser> {
    rules::all().into_iter().filter(|rule| !rule.is_twin())
}

/// The rules that the scenario names. Those that link libtorrent are told and left out where its feature isn't compiled in.
fn usual_rules(scenario: &Scenario) -> Vec<Chooser> {
    let found = |name: &&str| {
        let rule = rules::named(name);
        if rule.is_none() {
            eprintln!("{}, {name}: left out, since the feature libtorrent isn't compiled in", scenario.name);
        }
        rule
    };
    scenario.rules.iter().filter_map(found).collect()
}

/// The table of several scenarios with the same rules: those that are named, or those of the first scenario.
fn compared(names: &[&str], options: &[&str]) -> Fallible<String> {
    let sized: Vec<_> = names.iter().map(|name| sized(named(name)?, options)).collect::<Fallible<_>>()?;
    let Some((_, rules)) = sized.first().cloned() else { return Err(USAGE.into()) };
    let columns = sized.into_iter().map(|(scenario, _)| Ok((scenario, played(&scenario, &rules)?.0)));
    Ok(beside(&columns.collect::<Fallible<Vec<_>>>()?))
}

/// Runs the rules one after the other. Gives their runs, and the table with what belongs to it.
fn played(scenario: &Scenario, rules: &[Chooser]) -> Fallible<(Vec<Row>, String)> {
    let begin = Instant::now();
    let setups: Vec<_> = (1..=scenario.runs).map(|draw| (draw, scenario.setup(draw))).collect();
    let mut rows = Vec::new();
    for rule in rules {
        let start = Instant::now();
        let runs = setups.iter().map(|(draw, setup)| run(setup, rule, *draw)).collect::<Result<_, _>>()?;
        eprintln!("{}, {}: {:.0} s", scenario.name, rule.name, start.elapsed().as_secs_f64());
        rows.push(Row { rule: rule.name, runs });
    }
    let limits: Vec<_> = setups.iter().map(|(_, setup)| setup.bound()).collect();
    let limits = if scenario.is_crowd() { bounds(&limits) } else { String::new() };
    let events: u64 = rows.iter().flat_map(|row| &row.runs).map(|run| run.events).sum();
    let text = format!(
        "{limits}\n\n{}\n{}\nRuns of each rule: {}. All of them took {:.0} s, with {} million events. The process held at most {} MB.",
        table(scenario.content, &rows),
        mixes(&rows),
        scenario.runs,
        begin.elapsed().as_secs_f64(),
        events / 1_000_000,
        most_memory()?
    );
    Ok((rows, text))
}

/// The most megabytes that this process held, as Linux tells it.
fn most_memory() -> Fallible<u64> {
    let status = fs::read_to_string("/proc/self/status")?;
    let line = status.lines().find_map(|line| line.strip_prefix("VmHWM:")).ok_or("the system tells no VmHWM")?;
    let kilobytes: u64 = line.trim().trim_end_matches(" kB").parse()?;
    Ok(kilobytes * 1024 / 1_000_000)
}

/// Runs a scenario, and writes its table and its pictures into the folder docs of the repository.
fn write_page(scenario: &Scenario) -> Fallible<()> {
    let docs: PathBuf = Path::new(env!("CARGO_MANIFEST_DIR")).join("../../docs");
    let page = docs.join("swarms/tables.txt");
    // A page without the region is told before the runs, which may take an hour.
    page::replace(&fs::read_to_string(&page)?, scenario.name, "")?;
    let (rows, text) = played(scenario, &usual_rules(scenario))?;
    for &view in scenario.views {
        let picture = docs.join(format!("swarms/{}-{}.svg", scenario.name, view.word()));
        fs::write(picture, chart(scenario, view, &rows).svg())?;
    }
    let replaced = page::replace(&fs::read_to_string(&page)?, scenario.name, &text)?;
    Ok(fs::write(page, replaced)?)
}
