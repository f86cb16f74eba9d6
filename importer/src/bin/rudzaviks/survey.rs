//! Which registers a list uses, and where its labels are, in words.

use rudzaviks::{Label, Place, Reg, Settings, Survey};

use crate::colour::Page;
use crate::counts::number_of;
use crate::input::Input;
use crate::json::{Fields, Json};
use crate::wrap::{wrap, WIDTH};

pub fn show(input: &Input, survey: &Survey) -> Page {
    let registers = wrap(&registers(survey, &input.settings), WIDTH).join("\n");
    let settings = input.settings;
    Page::plain(&format!("{settings}\n\n{registers}\n{}", labels(survey, input)))
}

/// The survey, for programs.
pub fn fields(input: &Input, survey: &Survey) -> Fields {
    let labels = survey.labels.iter().map(|label| {
        let number = ("number", Json::number(label.number));
        let place = match label.place {
            Place::At { last, times } => {
                vec![("last", Json::Object(input.at(last))), ("times", Json::number(times))]
            }
            Place::Absent { jump } => vec![("jump", Json::Object(input.at(jump)))],
        };
        Json::Object([number].into_iter().chain(place).collect())
    });
    vec![
        ("registers", Json::list(survey.registers.iter().map(Json::text))),
        ("count", Json::number(survey.count)),
        ("labels", Json::list(labels)),
    ]
}

fn registers(survey: &Survey, settings: &Settings) -> String {
    let (count, count_regs) = (survey.count, settings.count_regs);
    if settings.compress {
        return format!("all {count} registers used, since compress is set");
    }
    if count == 0 {
        return "no registers used".to_string();
    }
    let names: Vec<String> = survey.registers.iter().map(Reg::to_string).collect();
    format!("{count} of {} used: {}", number_of(count_regs, "register"), names.join(" "))
}

fn labels(survey: &Survey, input: &Input) -> String {
    if survey.labels.is_empty() {
        return "no labels\n".to_string();
    }
    survey.labels.iter().map(|label| format!("{}\n", line(label, input))).collect()
}

fn line(label: &Label, input: &Input) -> String {
    let at = |index: usize| format!("{} {}", input.unit(), input.number(index));
    let place = match label.place {
        Place::At { last, times: 1 } => at(last),
        Place::At { last, times } => format!("{}, the last of {times}", at(last)),
        Place::Absent { jump } => format!("absent, though {} jumps to it", at(jump)),
    };
    format!("label {}: {place}", label.number)
}

#[cfg(test)]
mod tests {
    use super::*;

    fn used(numbers: std::ops::Range<u8>, settings: &Settings) -> String {
        let registers: Vec<Reg> = numbers.map(Reg::Gen).collect();
        let count = registers.len() as u32;
        super::registers(&Survey { registers, count, labels: Vec::new() }, settings)
    }

    #[test]
    fn registers_are_told_in_words() {
        let settings = Settings { count_regs: 4, ..Settings::default() };
        assert_eq!(used(0..0, &settings), "no registers used");
        assert_eq!(used(1..4, &settings), "3 of 4 registers used: %1 %2 %3");
        let one = Settings { count_regs: 1, ..settings };
        assert_eq!(used(0..1, &one), "1 of 1 register used: %0");
        let compress = Settings { compress: true, ..settings };
        assert_eq!(used(0..64, &compress), "all 64 registers used, since compress is set");
    }
}
