// The oracle's commands. Each reads a job on standard input unless README.md says otherwise.
use ::oracle::oracle::Oracle;
use ::oracle::text::number;
use ::oracle::{
    answer, batch, canon, canon_cases, cases, charge, contains, gen, guard, mending, output, raw, reasons,
    reasons_cases, runs, search, show, stepped, stored, text, trails, vectors,
};
use std::io::Read;

const USAGE: &str = "no such command, or not its arguments; tests/oracle/README.md lists the commands";

fn input() -> Result<Vec<u8>, String> {
    let mut bytes = Vec::new();
    std::io::stdin().read_to_end(&mut bytes).map_err(|why| format!("cannot read the input: {why}"))?;
    Ok(bytes)
}

fn cases_of(case: fn(u64, u64) -> String, seed: u64, count: u64) -> Result<(), String> {
    (0..count).try_for_each(|index| output(case(seed, index).as_bytes()))
}

fn run(words: &[&str]) -> Result<(), String> {
    match words {
        ["list"] => output(Oracle::default().answer(&input()?).listing().as_bytes()),
        ["list", "--tray", length] => {
            let length = number(length)?;
            output(Oracle::default().answer(&input()?).within(length).listing().as_bytes())
        }
        ["charge", arguments @ ..] => {
            let rate = charge::rate_of(arguments);
            output(charge::listing(rate, || Ok(Oracle::default().answer(&input()?)))?.as_bytes())
        }
        ["charges", file] => charge::make(file),
        ["tray"] => match Oracle::default().answer(&input()?) {
            answer::Answer::Refused(number) => Err(format!("the job is refused with {number}, so it has no tray")),
            answer => output(&answer.tray()),
        },
        ["contains"] => match Oracle::default().answer(&input()?) {
            answer::Answer::Refused(number) => Err(format!("refused {number}")),
            answer::Answer::Paths { closed, .. } => output(&contains::answers(&closed)),
        },
        ["canon"] => match canon::rewrite(&input()?) {
            Err(number) => Err(format!("refused {number}")),
            Ok(written) => output(&written),
        },
        ["mend"] => match mending::mend(&input()?) {
            Err(number) => Err(format!("refused {number}")),
            Ok(mended) => output(&mended),
        },
        ["canon", "expect", file] => canon_cases::expect(file),
        ["canon", "make", folder] => canon_cases::make(folder),
        ["canon", seed, count, threads] => canon_cases::compare(number(seed)?, number(count)?, number(threads)?),
        ["reasons"] => {
            let told = reasons::of_job(&mut Oracle::default(), &input()?)?;
            output(reasons::lines(&told).as_bytes())
        }
        ["reasons", "expect", file] => reasons_cases::expect(file),
        ["reasons", "make", folder] => reasons_cases::make(folder),
        ["reasons", seed, count, threads] => reasons_cases::compare(number(seed)?, number(count)?, number(threads)?),
        ["opened"] => output(show::opened(&input()?).as_bytes()),
        ["acts"] => output(show::acts(&input()?).as_bytes()),
        ["alone"] => output(show::alone(&input()?).as_bytes()),
        ["steps", records @ ..] => {
            let records: Result<Vec<u16>, String> = records.iter().map(|word| number(word)).collect();
            output(show::steps(&input()?, &records?).as_bytes())
        }
        ["states", file] => trails::list(&input()?, file),
        ["show"] => output(text::show(&input()?).as_bytes()),
        ["text"] => {
            let words = String::from_utf8(input()?).map_err(|_| "a job as text is not UTF-8".to_string())?;
            output(&text::parse(&words)?)
        }
        ["batch"] => batch::batch(None),
        ["batch", "--tray", length] => batch::batch(Some(number(length)?)),
        ["batch-steps"] => batch::batch_steps(),
        ["job", seed, index] => output(&gen::job(number(seed)?, number(index)?)),
        ["generate", seed, count] => runs::generate(number(seed)?, number(count)?),
        ["compare", seed, count, threads] => runs::compare(number(seed)?, number(count)?, number(threads)?, 0),
        ["compare", seed, count, threads, least] => {
            runs::compare(number(seed)?, number(count)?, number(threads)?, number(least)?)
        }
        ["endless", seed, count, n, side] => search::endless(number(seed)?, number(count)?, number(n)?, number(side)?),
        ["raw"] => output(raw::raw(&input()?)?.as_bytes()),
        ["raw-paths"] => output(raw::paths(&input()?)?.as_bytes()),
        ["expect", file] => cases::expect(file),
        ["stored", "make", folder] => output(stored::make(folder)?.as_bytes()),
        ["stored", form, file] => stored::emit(form, file),
        ["choose", seed, count, each] => stored::choose(number(seed)?, number(count)?, number(each)?),
        ["vectors", "geometry", seed, count] => cases_of(vectors::geometry, number(seed)?, number(count)?),
        ["vectors", "paths", seed, count] => cases_of(vectors::path, number(seed)?, number(count)?),
        ["stepped", "make", folder] => stepped::make(folder),
        ["stepped", "draw", seed, from, count] => stepped::draw(number(seed)?, number(from)?, number(count)?),
        ["stepped"] => stepped::answer(),
        ["child"] => guard::child(),
        _ => Err(USAGE.into()),
    }
}

fn main() {
    let words: Vec<String> = std::env::args().skip(1).collect();
    let words: Vec<&str> = words.iter().map(String::as_str).collect();
    if let Err(line) = run(&words) {
        eprintln!("oracle: {line}");
        std::process::exit(1);
    }
}
