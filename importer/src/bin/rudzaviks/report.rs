//! What a command gives of one list.

use std::ffi::OsStr;
use std::path::Path;

use rudzaviks::record::Records;
use rudzaviks::{file, text, Reduced, Refusal};

use crate::arguments::{Arguments, View};
use crate::colour::Page;
use crate::commands::Command;
use crate::counts::Sums;
use crate::failure::{Failure, HELP, REFUSED};
use crate::input::Input;
use crate::json::{Fields, Json};
use crate::{coverage, disassembly, explain, output, picture, pressure, side_by_side, survey};

/// What is given of a list.
#[derive(Default)]
pub struct Report {
    /// What is shown of it.
    pub page: Page,
    /// What stands alone on standard output.
    pub alone: Option<Alone>,
    /// What is said on standard error.
    pub notes: Page,
    /// The same for programs.
    pub fields: Fields,
    pub sums: Option<Sums>,
    /// Whether it was asked if theorems cover the list, and none does.
    pub uncovered: bool,
    pub status: u8,
}

/// A list by itself.
pub enum Alone {
    Text(String),
    Words(Vec<u8>),
}

/// Where a list is read from, and what is made of it is written to.
#[derive(Clone, Copy)]
pub struct Places<'a> {
    pub file: &'a OsStr,
    pub out: Option<&'a Path>,
    pub svg: Option<&'a Path>,
}

/// Does what was asked with one list.
pub fn of(arguments: &Arguments, places: Places) -> Result<Report, Failure> {
    let input = match arguments.command.needs_library() {
        true => Input::read(places.file)?,
        false => Input::read_any(places.file)?,
    };
    let mut report = match arguments.command {
        Command::Reduce => reduce(arguments, &input, places),
        Command::Check => check(arguments, &input),
        Command::Survey => survey(arguments, &input),
        Command::Pressure => pressure(arguments, &input, places),
        Command::Assemble => assemble(arguments, &input, places),
        Command::Disassemble => disassemble(arguments, &input, places),
        command => unreachable!("{} is not about lists", command.name()),
    }?;
    report.fields.insert(0, ("settings", settings(&input)));
    Ok(report)
}

/// What there is for programs, if it is asked for.
fn if_asked(arguments: &Arguments, fields: impl FnOnce() -> Fields) -> Fields {
    if arguments.json {
        fields()
    } else {
        Fields::new()
    }
}

fn settings(input: &Input) -> Json {
    let settings = input.settings;
    Json::Object(vec![
        ("count_regs", Json::number(settings.count_regs)),
        ("args", Json::number(settings.args)),
        ("complex", Json::Flag(settings.complex)),
        ("arm", Json::Flag(settings.arm)),
        ("compress", Json::Flag(settings.compress)),
        ("fixed_mark", Json::number(settings.fixed_mark())),
    ])
}

fn reduce(arguments: &Arguments, input: &Input, places: Places) -> Result<Report, Failure> {
    let reduced = reduced(input)?;
    let uncovered = taken(arguments, input)?;
    let sums = Sums::of(input, &reduced, uncovered.len());
    let mut report = Report { sums: Some(sums), ..Report::default() };
    if matches!(arguments.view, View::Plain | View::Words) || places.out.is_some() {
        let alone = alone(arguments, input, &reduced)?;
        place(&mut report, alone, places.out)?;
    }
    match arguments.view {
        View::Beside if places.out.is_none() => {
            report.page = side_by_side::show(input, &reduced, &sums, false);
        }
        View::Changes => report.page = side_by_side::show(input, &reduced, &sums, true),
        View::Stats => report.page = sums.table(),
        _ => {}
    }
    remark(arguments, &mut report, input, &uncovered);
    report.fields.extend(if_asked(arguments, || {
        let counts = ("counts", Json::Object(sums.fields()));
        let mut fields = side_by_side::fields(input, &reduced);
        fields.push(counts);
        fields.extend(coverage::fields(input, &uncovered));
        fields
    }));
    Ok(report)
}

/// The indexes of what no theorem covers, in a list that is taken all the same.
fn taken(arguments: &Arguments, input: &Input) -> Result<Vec<usize>, Failure> {
    let uncovered = coverage::uncovered(input);
    if arguments.strict {
        coverage::strict(input, &uncovered)?;
    }
    Ok(uncovered)
}

/// Says what no theorem covers: on the page, if there is one. A table of numbers has it already.
fn remark(arguments: &Arguments, report: &mut Report, input: &Input, uncovered: &[usize]) {
    let to_page = report.page != Page::default();
    let is_named = !to_page || arguments.command == Command::Check;
    let start = if is_named { format!("{}: ", input.name) } else { String::new() };
    let Some(note) = coverage::note(input, uncovered, &start) else { return };
    report.uncovered = true;
    match arguments.view {
        View::Stats => {}
        _ if to_page => report.page.append(note),
        _ => report.notes.append(note),
    }
}

/// The shortened list, as text or as a file of words.
fn alone(arguments: &Arguments, input: &Input, reduced: &Reduced) -> Result<Alone, Failure> {
    match arguments.view {
        View::Words => words(input, &Records::new(&reduced.list)).map(Alone::Words),
        _ => Ok(Alone::Text(text::print(&reduced.list, &input.settings))),
    }
}

fn words(input: &Input, records: &Records) -> Result<Vec<u8>, Failure> {
    let file = file::write(records, &input.settings);
    let help = "as text, lists of up to 65536 instructions are taken";
    file.map_err(|why| Failure::new(REFUSED, &format!("{}: {why}\n{HELP}{help}", input.name)))
}

/// Writes it to its place, or else to standard output.
fn place(report: &mut Report, alone: Alone, out: Option<&Path>) -> Result<(), Failure> {
    let Some(out) = out else {
        report.alone = Some(alone);
        return Ok(());
    };
    match &alone {
        Alone::Text(text) => output::write(text.as_bytes(), out)?,
        Alone::Words(bytes) => output::write(bytes, out)?,
    }
    report.fields.push(("output", Json::text(out.display())));
    Ok(())
}

fn check(arguments: &Arguments, input: &Input) -> Result<Report, Failure> {
    reduced(input)?;
    let uncovered = taken(arguments, input)?;
    let page = Page::plain(&format!("{}: passes all eleven questions\n", input.name));
    let fields = if_asked(arguments, || {
        let where_not = coverage::fields(input, &uncovered);
        [("passes", Json::Flag(true))].into_iter().chain(where_not).collect()
    });
    let mut report = Report { page, fields, ..Report::default() };
    remark(arguments, &mut report, input, &uncovered);
    Ok(report)
}

fn survey(arguments: &Arguments, input: &Input) -> Result<Report, Failure> {
    let survey = rudzaviks::survey(&input.records, &input.settings);
    let survey = survey.map_err(|refusal| explain::refused(input, refusal))?;
    let page = survey::show(input, &survey);
    let fields = if_asked(arguments, || survey::fields(input, &survey));
    Ok(Report { page, fields, ..Report::default() })
}

fn pressure(arguments: &Arguments, input: &Input, places: Places) -> Result<Report, Failure> {
    let reduced = reduced(input)?;
    let mut fields = if_asked(arguments, || pressure::fields(input, &reduced));
    if let Some(svg) = places.svg {
        output::write(picture::draw(input, &reduced).as_bytes(), svg)?;
        fields.push(("picture", Json::text(svg.display())));
    }
    Ok(Report { page: pressure::show(input, &reduced), fields, ..Report::default() })
}

fn assemble(arguments: &Arguments, input: &Input, places: Places) -> Result<Report, Failure> {
    let file = words(input, &input.records)?;
    let fields = if_asked(arguments, || {
        let pairs = input.records.table.len() / 2;
        let (words, _) = file.as_chunks();
        let words = words.iter().map(|bytes| Json::number(u32::from_le_bytes(*bytes)));
        let words = ("words", Json::list(words));
        [("records", Json::number(input.records.len())), ("pairs", Json::number(pairs))]
            .into_iter()
            .chain(places.out.is_none().then_some(words))
            .collect()
    });
    let (notes, status) = notes(input);
    let mut report = Report { notes, status, fields, ..Report::default() };
    place(&mut report, Alone::Words(file), places.out)?;
    Ok(report)
}

/// What is said of a list that no other command takes, and the status.
fn notes(input: &Input) -> (Page, u8) {
    let notes = disassembly::notes(input);
    let status = if notes == Page::default() { 0 } else { REFUSED };
    (notes, status)
}

fn disassemble(arguments: &Arguments, input: &Input, places: Places) -> Result<Report, Failure> {
    let (notes, status) = notes(input);
    let fields = if_asked(arguments, || disassembly::fields(input));
    let mut report = Report { notes, status, fields, ..Report::default() };
    place(&mut report, Alone::Text(disassembly::text(input)), places.out)?;
    Ok(report)
}

fn reduced(input: &Input) -> Result<Reduced, Failure> {
    by_both_entries(input).map_err(|refusal| explain::refused(input, refusal))
}

/// What is left of the list. One that fits a file goes to the entry for files, as it would from a C
/// program; that entry also refuses records that are no instructions. The entry for words then
/// tells what became of each instruction.
fn by_both_entries(input: &Input) -> Result<Reduced, Refusal> {
    let left = match file::write(&input.records, &input.settings) {
        Ok(file) => Some(file::reduce(&file)?),
        Err(_) => None,
    };
    let list = input.records.instructions().expect("a text, or a list that passed");
    let reduced = rudzaviks::reduce(&list, &input.settings)?;
    if let Some(list) = left {
        let left = Records { list, table: input.records.table.clone() };
        assert_eq!(left.instructions().as_ref(), Ok(&reduced.list), "both entries answer alike");
    }
    Ok(reduced)
}
