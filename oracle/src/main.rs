//! The program `oracle`: writes requests, leaf cases and their answers.

use std::io::{BufWriter, ErrorKind, Read, Write};
use std::process::ExitCode;

use oracle::design::{self, Request};
use oracle::leaves::LEAVES;
use oracle::text::Page;
use oracle::{generate, known, leaves, reader};

const USAGE: &str = "usage:
  oracle designs --seed S --from I --count N [--budget K]   requests I to I+N-1 of seed S, answered
  oracle leaves --seed S --count N [--leaf NAME]            N cases for each leaf, or for one
  oracle design [--budget K] < FILE                         the file's requests, answered
  oracle ends --seed S --from I --count N                   how these requests end, counted
  oracle known designs                                      requests with a name, answered
  oracle known leaves                                       document 01's cases for the leaves
  oracle places                                             special places for the angles
S, I, N and K are whole numbers; --budget ends every run after K exchanges at most.
";

/// Why the program stops: words it does not know, or a message.
enum Stop {
    Usage,
    Message(String),
    Write(std::io::Error),
}

impl From<std::io::Error> for Stop {
    fn from(error: std::io::Error) -> Stop {
        Stop::Write(error)
    }
}

/// The options of a command, each given at most once.
struct Options(Vec<(String, String)>);

impl Options {
    fn of(words: &[String], known: &[&str]) -> Result<Options, Stop> {
        let mut options: Vec<(String, String)> = Vec::new();
        for pair in words.chunks(2) {
            let [name, value] = pair else {
                return Err(Stop::Usage);
            };
            if !known.contains(&name.as_str()) || options.iter().any(|(given, _)| given == name) {
                return Err(Stop::Usage);
            }
            options.push((name.clone(), value.clone()));
        }
        Ok(Options(options))
    }

    fn word(&self, name: &str) -> Option<&str> {
        let found = self.0.iter().find(|(given, _)| given == name);
        found.map(|(_, value)| value.as_str())
    }

    fn whole(&self, name: &str) -> Result<Option<u64>, Stop> {
        match self.word(name) {
            None => Ok(None),
            Some(word) => word
                .parse()
                .map(Some)
                .map_err(|_| Stop::Message(format!("{name} must be a whole number, not '{word}'"))),
        }
    }

    fn needed(&self, name: &str) -> Result<u64, Stop> {
        self.whole(name)?.ok_or(Stop::Usage)
    }

    fn budget(&self) -> Result<usize, Stop> {
        Ok(self.whole("--budget")?.map_or(usize::MAX, |k| k as usize))
    }
}

fn answered(request: &Request, budget: usize) -> Page {
    let mut page = Page::default();
    page.request(request);
    page.answer(&design::run(request, request.allowed.min(budget)));
    page
}

fn designs(words: &[String], out: &mut impl Write) -> Result<(), Stop> {
    let options = Options::of(words, &["--seed", "--from", "--count", "--budget"])?;
    let (seed, from) = (options.needed("--seed")?, options.needed("--from")?);
    let (count, budget) = (options.needed("--count")?, options.budget()?);
    for place in 0..count {
        let index = from.wrapping_add(place);
        writeln!(out, "# request {index} of seed {seed}")?;
        let request = generate::request(seed, index);
        out.write_all(answered(&request, budget).0.as_bytes())?;
    }
    Ok(())
}

fn leaves(words: &[String], out: &mut impl Write) -> Result<(), Stop> {
    let options = Options::of(words, &["--seed", "--count", "--leaf"])?;
    let (seed, count) = (options.needed("--seed")?, options.needed("--count")?);
    let only = options.word("--leaf");
    if let Some(name) = only
        && !LEAVES.iter().any(|(leaf, _)| *leaf == name)
    {
        let names: Vec<&str> = LEAVES.iter().map(|(leaf, _)| *leaf).collect();
        let names = names.join(", ");
        return Err(Stop::Message(format!(
            "no leaf '{name}'; there are {names}"
        )));
    }
    for (name, write) in LEAVES {
        if only.is_some_and(|only| only != name) {
            continue;
        }
        for index in 0..count {
            let mut page = Page::default();
            leaves::write(seed, name, write, index as usize, &mut page);
            out.write_all(page.0.as_bytes())?;
        }
    }
    Ok(())
}

fn design(words: &[String], out: &mut impl Write) -> Result<(), Stop> {
    let budget = Options::of(words, &["--budget"])?.budget()?;
    let mut text = String::new();
    std::io::stdin()
        .read_to_string(&mut text)
        .map_err(|error| Stop::Message(format!("cannot read the requests: {error}")))?;
    for request in reader::requests(&text).map_err(Stop::Message)? {
        out.write_all(answered(&request, budget).0.as_bytes())?;
    }
    Ok(())
}

fn ends(words: &[String], out: &mut impl Write) -> Result<(), Stop> {
    let options = Options::of(words, &["--seed", "--from", "--count"])?;
    let (seed, from) = (options.needed("--seed")?, options.needed("--from")?);
    let mut counts = std::collections::BTreeMap::new();
    for place in 0..options.needed("--count")? {
        let request = generate::request(seed, from.wrapping_add(place));
        let end = match design::run(&request, request.allowed) {
            Err(failure) if failure.exchange == 0 => format!("failed at once: {}", failure.name),
            Err(failure) => format!("failed in an exchange: {}", failure.name),
            Ok(design) if !design.is_finite() => "not finite".to_string(),
            Ok(design) if design.iterations == 0 => "no exchange allowed".to_string(),
            Ok(design) if design.flatness <= request.threshold => "converged".to_string(),
            Ok(_) => "budget used".to_string(),
        };
        *counts.entry(end).or_insert(0u64) += 1;
    }
    for (end, count) in counts {
        writeln!(out, "{count:>9} {end}")?;
    }
    Ok(())
}

fn known(words: &[String], out: &mut impl Write) -> Result<(), Stop> {
    let mut page = Page::default();
    match words {
        [what] if what == "designs" => {
            for (name, request) in known::requests() {
                page.line(format_args!("# {name}"));
                page.0.push_str(&answered(&request, usize::MAX).0);
            }
        }
        [what] if what == "leaves" => leaves::known(&mut page),
        _ => return Err(Stop::Usage),
    }
    out.write_all(page.0.as_bytes())?;
    Ok(())
}

fn places(words: &[String], out: &mut impl Write) -> Result<(), Stop> {
    Options::of(words, &[])?;
    let mut page = Page::default();
    leaves::places(&mut page);
    out.write_all(page.0.as_bytes())?;
    Ok(())
}

fn command(words: &[String], out: &mut impl Write) -> Result<(), Stop> {
    let (name, rest) = words.split_first().ok_or(Stop::Usage)?;
    match name.as_str() {
        "designs" => designs(rest, out),
        "leaves" => leaves(rest, out),
        "design" => design(rest, out),
        "ends" => ends(rest, out),
        "known" => known(rest, out),
        "places" => places(rest, out),
        _ => Err(Stop::Usage),
    }?;
    out.flush()?;
    Ok(())
}

fn main() -> ExitCode {
    design::quiet_panics();
    let words: Vec<String> = std::env::args().skip(1).collect();
    let mut out = BufWriter::new(std::io::stdout().lock());
    match command(&words, &mut out) {
        Ok(()) => ExitCode::SUCCESS,
        Err(Stop::Usage) => {
            eprint!("{USAGE}");
            ExitCode::from(2)
        }
        // A reader that has had enough is no fault.
        Err(Stop::Write(error)) if error.kind() == ErrorKind::BrokenPipe => ExitCode::SUCCESS,
        Err(Stop::Write(error)) => {
            eprintln!("oracle: cannot write: {error}");
            ExitCode::FAILURE
        }
        Err(Stop::Message(message)) => {
            eprintln!("oracle: {message}");
            ExitCode::FAILURE
        }
    }
}
