//! What shells need to complete commands and options, from the table.

use crate::commands::{Command, Entry, Operand, ENTRIES, TOPICS};
use crate::help;
use crate::options::{Opt, HELP, VERSION};

/// The completions for a shell, if there are any for it.
pub fn of(shell: &str) -> Option<String> {
    match shell {
        "bash" => Some(bash()),
        "zsh" => Some(zsh()),
        "fish" => Some(fish()),
        _ => None,
    }
}

/// What may stand for an operand that is no file.
fn operands(entry: &Entry) -> Vec<&'static str> {
    match entry.operand {
        Operand::OneOf(_, names) => names.to_vec(),
        Operand::Topic => {
            let commands = ENTRIES.iter().map(|entry| entry.name);
            commands.chain(TOPICS).collect()
        }
        Operand::Lists | Operand::Nothing => Vec::new(),
    }
}

/// What is said of an option in a few words: up to the first stop.
fn brief(about: &str) -> &str {
    let end = [". ", "; ", ": "].iter().filter_map(|stop| about.find(stop)).min();
    &about[..end.unwrap_or(about.len())]
}

fn names(options: impl Iterator<Item = &'static Opt>) -> String {
    let names: Vec<&str> = options.flat_map(|option| option.names).copied().collect();
    names.join(" ")
}

/// With no word to give, bash completes the names of files itself.
fn bash() -> String {
    let commands: Vec<&str> = ENTRIES.iter().map(|entry| entry.name).collect();
    let cases: String = ENTRIES.iter().map(bash_case).collect();
    let values: String = valued()
        .iter()
        .map(|option| {
            let names = option.names.join(" | ");
            format!("    {names}) words=\"{}\" ;;\n", option.values.join(" "))
        })
        .collect();
    format!(
        "# Completions of rudzaviks for bash.\n\
         _rudzaviks() {{\n    \
             local word=${{COMP_WORDS[COMP_CWORD]}} before=${{COMP_WORDS[COMP_CWORD - 1]}}\n    \
             local options= words=\n    \
             case ${{COMP_WORDS[1]}} in\n{cases}    esac\n    \
             if [[ $COMP_CWORD -eq 1 ]]; then\n        \
                 options=\"{}\" words=\"{}\"\n    \
             fi\n    \
             # bash takes --name=value for three words.\n    \
             [[ $word != = ]] || word=\n    \
             [[ $before != = ]] || before=${{COMP_WORDS[COMP_CWORD - 2]}}\n    \
             [[ $word != -* ]] || words=$options\n    \
             case $before in\n{values}    esac\n    \
             COMPREPLY=($(compgen -W \"$words\" -- \"$word\"))\n\
         }}\n\
         complete -o default -F _rudzaviks rudzaviks\n",
        names([&HELP, &VERSION].into_iter()),
        commands.join(" "),
    )
}

fn bash_case(entry: &Entry) -> String {
    let (options, words) = (names(help::options(entry)), operands(entry).join(" "));
    format!("    {}) options=\"{options}\" words=\"{words}\" ;;\n", entry.name)
}

/// The options that take a value, each once.
fn valued() -> Vec<&'static Opt> {
    let mut all: Vec<&Opt> = Vec::new();
    for option in ENTRIES.iter().flat_map(|entry| entry.options).copied() {
        if option.value.is_some() && all.iter().all(|known| known.name() != option.name()) {
            all.push(option);
        }
    }
    all
}

fn zsh() -> String {
    let commands: String = ENTRIES
        .iter()
        .map(|entry| {
            format!("            {}\n", quoted(&format!("{}:{}", entry.name, entry.brief)))
        })
        .collect();
    let cases: String = ENTRIES.iter().map(zsh_case).collect();
    format!(
        "#compdef rudzaviks\n\
         # Completions of rudzaviks for zsh.\n\
         _rudzaviks() {{\n    \
             if (( CURRENT == 2 )); then\n        \
                 local -a commands=(\n{commands}        )\n        \
                 _describe command commands\n        \
                 return\n    \
             fi\n    \
             local command=$words[2]\n    \
             shift words\n    \
             (( CURRENT-- ))\n    \
             case $command in\n{cases}    esac\n\
         }}\n\
         _rudzaviks \"$@\"\n"
    )
}

fn zsh_case(entry: &Entry) -> String {
    let options = help::options(entry).flat_map(|option| {
        option.names.iter().map(move |name| {
            let about = brief(option.about).replace('[', "\\[").replace(']', "\\]");
            quoted(&format!("{name}[{}]{}", about.replace(':', "\\:"), zsh_value(option)))
        })
    });
    let operand = match entry.operand {
        Operand::Lists => "'*:list:_files'".to_string(),
        Operand::Nothing => String::new(),
        _ => format!("'1:name:({})'", operands(entry).join(" ")),
    };
    let words: Vec<String> = options.chain([operand]).collect();
    format!("    {}) _arguments -S {} ;;\n", entry.name, words.join(" "))
}

fn zsh_value(option: &Opt) -> String {
    match option.value {
        None => String::new(),
        Some(name) if !option.values.is_empty() => {
            format!(":{name}:({})", option.values.join(" "))
        }
        Some(name) if takes_file(option) => format!(":{name}:_files"),
        Some(name) => format!(":{name}: "),
    }
}

/// Whether the option's value names a file.
fn takes_file(option: &Opt) -> bool {
    option.value == Some("OUT")
}

fn fish() -> String {
    let first = ENTRIES.iter().map(|entry| {
        let (name, brief) = (entry.name, quoted(entry.brief));
        format!("complete -c rudzaviks -n __fish_use_subcommand -f -a {name} -d {brief}\n")
    });
    let rest = ENTRIES.iter().map(fish_command);
    let lines: String = first.chain(rest).collect();
    format!("# Completions of rudzaviks for fish.\n{lines}")
}

fn fish_command(entry: &Entry) -> String {
    let on = format!("complete -c rudzaviks -n '__fish_seen_subcommand_from {}'", entry.name);
    let options = help::options(entry).map(|option| {
        let names = option.names.iter().map(|name| match name.strip_prefix("--") {
            Some(long) => format!(" -l {long}"),
            None => format!(" -s {}", &name[1..]),
        });
        let names: String = names.collect();
        let value = match option.value {
            None => String::new(),
            Some(_) if takes_file(option) => " -r".to_string(),
            Some(_) => format!(" -x -a '{}'", option.values.join(" ")),
        };
        format!("{on}{names}{value} -d {}\n", quoted(brief(option.about)))
    });
    let operands = match entry.command {
        Command::Help | Command::Completion => {
            format!("{on} -f -a '{}'\n", operands(entry).join(" "))
        }
        _ => String::new(),
    };
    options.chain([operands]).collect()
}

/// The text as one word of a shell.
fn quoted(text: &str) -> String {
    format!("'{}'", text.replace('\'', "'\\''"))
}

#[cfg(test)]
mod tests {
    use super::*;

    #[test]
    fn few_words_say_what_an_option_is() {
        assert_eq!(brief("write it. Then more"), "write it");
        assert_eq!(brief("write it; and more: all"), "write it");
        assert_eq!(brief("write 1.5 of it"), "write 1.5 of it");
        assert_eq!(quoted("a list's end"), r"'a list'\''s end'");
    }
}
