//! What a refusal means for the given list.

use rudzaviks::file::Malformed;
use rudzaviks::{Instruction, Refusal, Reg};

use crate::colour::{Page, Style};
use crate::counts::number_of;
use crate::excerpt::excerpt;
use crate::failure::{Failure, HELP, REFUSED, WRONG};
use crate::input::Input;
use crate::json::{Fields, Json};

/// The refusal, the line that it is about, and why.
pub fn refused(input: &Input, refusal: Refusal) -> Failure {
    if refusal.number <= 4 {
        let detail = whole_list(input, refusal.number);
        return without_line(&input.name, refusal, &detail, help(refusal));
    }
    let index = refusal.index as usize;
    let ins = input.records.instruction(index);
    let (at_fault, detail) = match (&ins, refusal.number) {
        (Err(bad), _) => (None, bad.to_string()),
        (Ok(ins), 7) => out_of_range(input, ins),
        (Ok(ins), 9) => without_value(input, ins, index),
        (Ok(ins), 15) => past_branch(input, ins, index),
        (Ok(ins), 16) => without_label(input, ins),
        _ => {
            let last = AtFault { what: Named::Number(u32::MAX), after: "" };
            (Some(last), "a complex value needs this cell and the next".to_string())
        }
    };
    let line = input.line(index);
    let column = at_fault.and_then(|at_fault| column(&line, &at_fault));
    let mut page = Page::default();
    page.add(Style::Title, format!("{}: {refusal}", input.place(index, column)));
    page.append(excerpt(input.number(index), &line, column));
    page.append(Page::plain(&detail));
    page.append(helpful(help(refusal)));
    let mut at = input.at(index);
    // A file has no lines, and so no columns.
    if let (Some(column), "line") = (column, input.unit()) {
        at.push(("column", Json::number(column)));
    }
    Failure { status: REFUSED, page, fields: fields(refusal, at, &detail, help(refusal)) }
}

/// A file of words that is none, and so is refused by question 3.
pub fn refused_file(name: &str, why: &Malformed) -> Failure {
    without_line(name, why.refusal(), &why.to_string(), Some(WHOLE))
}

/// What can be done about a file that is none.
const WHOLE: &str = "copy it again, or write it from its text with `rudzaviks assemble`";

/// The same where no question is put.
pub fn no_file(name: &str, why: &Malformed) -> Failure {
    Failure::new(WRONG, &format!("{name}: this is no file of words\n{why}\n{HELP}{WHOLE}"))
}

fn without_line(name: &str, refusal: Refusal, detail: &str, help: Option<&str>) -> Failure {
    let mut page = Page::default();
    page.add(Style::Title, format!("{name}: {refusal}"));
    page.append(Page::plain(detail));
    page.append(helpful(help));
    Failure { status: REFUSED, page, fields: fields(refusal, Fields::new(), detail, help) }
}

fn fields(refusal: Refusal, at: Fields, detail: &str, help: Option<&str>) -> Fields {
    let question = ("question", Json::number(refusal.number));
    let why = [("reason", Json::text(refusal.reason())), ("detail", Json::text(detail))];
    let help = help.map(|help| ("help", Json::text(help)));
    vec![(
        "refusal",
        Json::Object([question].into_iter().chain(at).chain(why).chain(help).collect()),
    )]
}

fn helpful(help: Option<&str>) -> Page {
    let mut page = Page::default();
    if let Some(help) = help {
        page.add(Style::Note, format!("{HELP}{help}"));
    }
    page
}

/// What can be done about a refusal.
fn help(refusal: Refusal) -> Option<&'static str> {
    match refusal.number {
        1 => Some("set count_regs to the machine's registers, which are at most 64"),
        2 => Some("set args to at most 65535"),
        5 | 6 => Some("`rudzaviks disassemble` shows all records, and which are no instructions"),
        7 => Some("use a register that there is, or set count_regs to more"),
        8 => Some("use a cell before the last of its space"),
        9 => Some("write it first; what is needed past a label or a call goes through a cell"),
        15 => Some("save it to a cell before the branch, and load it again after it"),
        16 => Some("add a label with this number, or jump to one that the list has"),
        _ => None,
    }
}

fn whole_list(input: &Input, number: u32) -> String {
    match number {
        1 => format!("count_regs is {}", input.settings.count_regs),
        2 => format!("args is {}", input.settings.args),
        _ => {
            let records = number_of(input.records.len(), "instruction");
            let pairs = number_of(input.records.table.len() / 2, "location");
            format!("it has {records}, and {pairs} of LoadArgs; up to 65536 and 32768 are taken")
        }
    }
}

/// What is at fault in a line, and what stands before it, if the line has that.
struct AtFault {
    what: Named,
    after: &'static str,
}

/// A register, or a number that is none.
#[derive(Clone, Copy, PartialEq)]
enum Named {
    Reg(Reg),
    Number(u32),
}

fn written(reg: Reg) -> AtFault {
    AtFault { what: Named::Reg(reg), after: "" }
}

fn read(reg: Reg) -> AtFault {
    AtFault { what: Named::Reg(reg), after: ":=" }
}

fn is_general(reg: &Reg) -> bool {
    matches!(reg, Reg::Gen(_))
}

/// Question 7.
fn out_of_range(input: &Input, ins: &Instruction) -> (Option<AtFault>, String) {
    let count = input.settings.count_regs;
    let too_high = |reg: &Reg| matches!(reg, Reg::Gen(number) if u32::from(*number) >= count);
    let at_fault = match ins.destinations().into_iter().find(too_high) {
        Some(reg) => Some(written(reg)),
        None => ins.sources().into_iter().find(too_high).map(read),
    };
    let detail = match count {
        0 => "count_regs is 0: there are no general registers".to_string(),
        1 => "count_regs is 1: the one general register is %0".to_string(),
        _ => format!("count_regs is {count}: the general registers are %0 to %{}", count - 1),
    };
    (at_fault, detail)
}

/// Question 9.
fn without_value(input: &Input, ins: &Instruction, index: usize) -> (Option<AtFault>, String) {
    let forgetting = last(input, index, Instruction::forgets);
    // No record at all comes before the first.
    let has_value = |reg: &Reg| last_write(input, *reg, index) > forgetting;
    let mut general = ins.sources().into_iter().filter(is_general);
    let reg = general.find(|reg| !has_value(reg)).expect("a register that question 9 is about");
    let at = |at: usize| place(input, at);
    let instruction = |at: usize| input.instruction(at);
    let detail = match (last_write(input, reg, index).map(at), forgetting.map(at)) {
        (Some(written), Some(forgotten)) => {
            let is_call = matches!(forgetting.map(instruction), Some(Instruction::Call { .. }));
            let what = if is_call { "call" } else { "label" };
            format!("{reg} was written at {written}, but the {what} at {forgotten} forgets it")
        }
        _ => format!("nothing before it writes {reg}"),
    };
    (Some(read(reg)), detail)
}

/// Question 15.
fn past_branch(input: &Input, ins: &Instruction, index: usize) -> (Option<AtFault>, String) {
    let branch = last(input, index, |ins| matches!(ins, Instruction::BranchIf { .. }));
    let is_stale = |reg: &Reg| is_general(reg) && last_write(input, *reg, index) < branch;
    let reg = ins.sources().into_iter().find(is_stale);
    let reg = reg.expect("a register that question 15 is about");
    let [write, branch] = [last_write(input, reg, index), branch]
        .map(|at| place(input, at.expect("question 9 asks for a write, and 15 for a branch")));
    let detail = format!(
        "{reg} was written at {write}, but not since the branch at {branch}, past which no general \
         register is kept"
    );
    (Some(read(reg)), detail)
}

/// Question 16.
fn without_label(input: &Input, ins: &Instruction) -> (Option<AtFault>, String) {
    let (Instruction::Branch { label } | Instruction::BranchIf { label, .. }) = *ins else {
        unreachable!("question 16 is about branches")
    };
    let is_label = |ins: &Instruction| matches!(ins, Instruction::Label { .. });
    let detail = match last(input, input.records.len(), is_label) {
        None => "the list has no labels".to_string(),
        Some(_) => format!("the list has no label {label}; `survey` shows those that it has"),
    };
    (Some(AtFault { what: Named::Number(label), after: "goto" }), detail)
}

fn place(input: &Input, index: usize) -> String {
    format!("{} {}", input.unit(), input.number(index))
}

/// The last record before the index that writes the register.
fn last_write(input: &Input, reg: Reg, index: usize) -> Option<usize> {
    last(input, index, |ins| ins.destinations().contains(&reg))
}

/// The last record before the index that is wanted.
fn last(input: &Input, index: usize, wanted: impl Fn(&Instruction) -> bool) -> Option<usize> {
    (0..index).rev().find(|at| input.records.instruction(*at).is_ok_and(|ins| wanted(&ins)))
}

/// The column of what is at fault in a line: after what stands before it, if the line has that.
fn column(line: &str, at_fault: &AtFault) -> Option<usize> {
    let code = line.split('#').next().unwrap_or_default();
    let start = code.find(at_fault.after).map_or(0, |at| at + at_fault.after.len());
    let mut words = words(code).filter(|(at, _)| *at >= start);
    let (at, _) = words.find(|(_, word)| meaning(word) == Some(at_fault.what))?;
    Some(line[..at].chars().count() + 1)
}

/// The registers, numbers and names in a line, and where each starts.
fn words(code: &str) -> impl Iterator<Item = (usize, &str)> {
    let in_word = |c: char| c.is_ascii_alphanumeric() || c == '$' || c == '_';
    let mut at = 0;
    std::iter::from_fn(move || {
        at += code[at..].find(|c| in_word(c) || c == '%')?;
        let start = at;
        let sign = usize::from(code[at..].starts_with('%'));
        let rest = &code[at + sign..];
        at += sign + rest.find(|c| !in_word(c)).unwrap_or(rest.len());
        Some((start, &code[start..at]))
    })
}

/// What a word names: however it is written, with zeros before it or without.
fn meaning(word: &str) -> Option<Named> {
    if let Ok(number) = word.parse() {
        return Some(Named::Number(number));
    }
    let number = word.strip_prefix('%')?.parse().ok()?;
    Some(Named::Reg(Reg::Gen(number)))
}

#[cfg(test)]
mod tests {
    use super::*;

    #[test]
    fn a_register_is_found_in_its_line() {
        let line = "  %1 := %12 Plus %1  # %1";
        assert_eq!(column(line, &written(Reg::Gen(1))), Some(3));
        assert_eq!(column(line, &read(Reg::Gen(1))), Some(18));
        assert_eq!(column(line, &read(Reg::Gen(12))), Some(9));
        assert_eq!(column(line, &read(Reg::Gen(2))), None);
        assert_eq!(column("if not %3 goto 7", &read(Reg::Gen(3))), Some(8));
        assert_eq!(column("if %3 goto 7 # x := %3", &read(Reg::Gen(3))), Some(4));
        assert_eq!(column("%1:=%01 Plus %00", &read(Reg::Gen(0))), Some(14));
    }

    #[test]
    fn a_number_is_found_in_its_line() {
        let label = |number| AtFault { what: Named::Number(number), after: "goto" };
        assert_eq!(column("if %7 goto 7", &label(7)), Some(12));
        assert_eq!(column("  goto 77 # 7", &label(77)), Some(8));
        assert_eq!(column("if %0 goto 08", &label(8)), Some(12));
        let last = AtFault { what: Named::Number(u32::MAX), after: "" };
        assert_eq!(column("(%0 + %1*im) := Mem[4294967295]", &last), Some(21));
        assert_eq!(column("Stack[4294967295] := (%0 + %1*im)", &last), Some(7));
    }
}
