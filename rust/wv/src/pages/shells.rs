//! Completions: scripts for bash, zsh and fish.

use super::{options, Opt, Takes};
use crate::commands::{Command, ALL};

/// The first words of all commands, each once, with what is told of it.
fn first_words() -> Vec<(&'static str, String)> {
    let mut words: Vec<(&str, String)> = vec![];
    for command in ALL {
        let (first, second) = split(command);
        let about = match second {
            None => command.about.to_string(),
            Some(_) => format!("Commands: {}.", second_words(first).join(", ")),
        };
        if words.iter().all(|(word, _)| *word != first) {
            words.push((first, about));
        }
    }
    words.push(("help", "Tell more about a command.".into()));
    words
}

/// The two words of a command's name, or its one.
fn split(command: &Command) -> (&'static str, Option<&'static str>) {
    match command.name.split_once(' ') {
        Some((first, second)) => (first, Some(second)),
        None => (command.name, None),
    }
}

fn second_words(first: &str) -> Vec<&'static str> {
    let of_first = ALL.iter().map(split).filter(|(word, _)| *word == first);
    of_first.filter_map(|(_, second)| second).collect()
}

/// The first words that have second ones.
fn groups() -> Vec<&'static str> {
    let words = first_words().into_iter().map(|(word, _)| word);
    words
        .filter(|word| !second_words(word).is_empty())
        .collect()
}

fn dashed<'a>(options: impl Iterator<Item = &'a Opt>) -> String {
    let names: Vec<String> = options.map(|option| format!("--{}", option.name)).collect();
    names.join(" ")
}

const BASH_HEAD: &str = "\
# bash completion for wv
_wv() {
    local word=${COMP_WORDS[COMP_CWORD]} before=${COMP_WORDS[COMP_CWORD - 1]}
    local command=${COMP_WORDS[1]} at=1 words options='' numbers=''
    COMPREPLY=()
    [[ $command == help ]] && at=2 command=${COMP_WORDS[2]}
";

/// The script for bash.
pub fn bash() -> String {
    let words: Vec<&str> = first_words().iter().map(|(word, _)| *word).collect();
    let mut text = BASH_HEAD.to_string();
    text += &format!("    words='{}'\n", words.join(" "));
    text += "    ((COMP_CWORD == 1)) && words+=' --help --version'\n";
    text += "    if ((COMP_CWORD > at)); then\n        case $command in\n";
    for group in groups() {
        text += &format!(
            "        {group}) at=$((at + 1)) command+=\" ${{COMP_WORDS[at]}}\" words='{}' ;;\n",
            second_words(group).join(" ")
        );
    }
    text += "        esac\n    fi\n    if ((COMP_CWORD <= at)); then\n";
    text += "        mapfile -t COMPREPLY < <(compgen -W \"$words\" -- \"$word\")\n        return\n    fi\n";
    text += "    case $command in\n";
    for command in ALL {
        let options = options(command);
        let numbers = options
            .iter()
            .filter(|option| option.takes == Takes::Number);
        text += &format!(
            "    '{}') options='{}' numbers='{}' ;;\n",
            command.name,
            dashed(options.iter()),
            dashed(numbers)
        );
    }
    text += "    esac\n";
    text + "    if [[ \" $numbers \" == *\" $before \"* ]]; then
        compopt +o default 2>/dev/null
    elif [[ $word == -* ]]; then
        mapfile -t COMPREPLY < <(compgen -W \"$options\" -- \"$word\")
    fi
}
complete -o default -F _wv wv
"
}

/// The script for zsh.
pub fn zsh() -> String {
    let mut text = "#compdef wv\n_wv() {\n    local command=$words[2]\n".to_string();
    text += "    local -a commands\n    commands=(\n";
    for (word, about) in first_words() {
        text += &format!("        '{word}:{}'\n", quoted(&about));
    }
    text += "    )\n    if (( CURRENT == 2 )); then\n        _describe command commands\n";
    text += "        _arguments '--help[list the commands]' '--version[print the version]'\n        return\n    fi\n";
    text += "    if [[ $command == help ]]; then\n        (( CURRENT == 3 )) && _describe command commands\n        return\n    fi\n";
    text += "    shift words\n    (( CURRENT-- ))\n";
    for group in groups() {
        let words = second_words(group).join(" ");
        text += &format!("    if [[ $command == {group} ]]; then\n");
        text += &format!("        if (( CURRENT == 2 )); then\n            compadd {words}\n            return\n        fi\n");
        text += "        command+=\" $words[2]\"\n        shift words\n        (( CURRENT-- ))\n    fi\n";
    }
    text += "    case $command in\n";
    for command in ALL {
        text += &format!("    '{}')\n        _arguments \\\n", command.name);
        for option in options(command) {
            text += &format!("            '{}' \\\n", zsh_option(&option));
        }
        text += "            '*:file:_files'\n        ;;\n";
    }
    text + "    esac\n}\n_wv \"$@\"\n"
}

fn zsh_option(option: &Opt) -> String {
    let about = quoted(&option.about)
        .replace('[', "\\[")
        .replace(']', "\\]");
    let name = option.name;
    match option.takes {
        Takes::Nothing => format!("--{name}[{about}]"),
        Takes::Number => format!("--{name}=[{about}]:number: "),
        Takes::Bytes => format!("--{name}=[{about}]:file:_files"),
    }
}

/// Text between two single quotes of a shell; `:` parts words for zsh.
fn quoted(text: &str) -> String {
    text.replace('\'', "'\\''").replace(':', "\\:")
}

const FISH_HEAD: &str = "\
# fish completion for wv
function __wv_at
    set -l words (commandline -opc)
    set -e words[1]
    test (count $words) -ge (count $argv)
    and test (string join ' ' -- $words[1..(count $argv)]) = (string join ' ' -- $argv)
end
function __wv_has
    test (count (commandline -opc)) -eq $argv[1]
end
";

/// The script for fish.
pub fn fish() -> String {
    let mut text = FISH_HEAD.to_string();
    let mut add = |condition: &str, what: &str, about: &str| {
        let about = about.replace('\\', "\\\\").replace('\'', "\\'");
        text += &format!("complete -c wv -n '{condition}' {what} -d '{about}'\n");
    };
    add("__wv_has 1", "-f -l help", "list the commands");
    add("__wv_has 1", "-f -l version", "print the version");
    for (word, about) in first_words() {
        add("__wv_has 1", &format!("-f -a {word}"), &about);
        if word != "help" {
            add(
                "__wv_at help; and __wv_has 2",
                &format!("-f -a {word}"),
                &about,
            );
        }
    }
    for command in ALL {
        if let (first, Some(second)) = split(command) {
            let condition = format!("__wv_at {first}; and __wv_has 2");
            add(&condition, &format!("-f -a {second}"), command.about);
        }
        for option in options(command) {
            let takes = match option.takes {
                Takes::Nothing => "",
                Takes::Number => " -x",
                Takes::Bytes => " -r -F",
            };
            let condition = format!("__wv_at {}", command.name);
            add(
                &condition,
                &format!("-l {}{takes}", option.name),
                &option.about,
            );
        }
    }
    text
}
