//! The texts that each program brings, except `machdump`: its manual page, and the completions of three shells. tools/manual writes them.
use std::ffi::OsString;
use std::io::{ErrorKind, Write, stderr, stdout};
use std::process::ExitCode;

/// The texts of a program.
pub(crate) struct Texts {
    pub(crate) name: &'static str,
    pub(crate) manual: &'static str,
    pub(crate) bash: &'static str,
    pub(crate) zsh: &'static str,
    pub(crate) fish: &'static str,
}

/// The texts of the program with this name.
macro_rules! texts {
    ($name:ident) => {
        $crate::manual::Texts {
            name: stringify!($name),
            manual: include_str!(concat!("../man/", stringify!($name), ".txt")),
            bash: include_str!(concat!("../man/", stringify!($name), ".bash")),
            zsh: include_str!(concat!("../man/", stringify!($name), ".zsh")),
            fish: include_str!(concat!("../man/", stringify!($name), ".fish")),
        }
    };
}

pub(crate) use texts;

/// What the arguments name.
#[derive(Debug, PartialEq)]
enum Named<'a> {
    /// A text.
    Text(&'a str),
    /// The completions of no shell that is known.
    NoShell,
    /// Nothing here: the arguments are the program's own.
    Nothing,
}

impl Texts {
    fn named(&self, words: &[OsString]) -> Named<'_> {
        let shell = match words {
            [option] if option == "--manual" => return Named::Text(self.manual),
            [option, shell] if option == "--completions" => shell.to_str(),
            [option, ..] if option == "--completions" => None,
            _ => return Named::Nothing,
        };
        match shell {
            Some("bash") => Named::Text(self.bash),
            Some("zsh") => Named::Text(self.zsh),
            Some("fish") => Named::Text(self.fish),
            _ => Named::NoShell,
        }
    }
}

/// Prints the text that the arguments name, and returns the status. If they name none it returns nothing, and has allocated nothing.
pub(crate) fn print(texts: &Texts, words: &[OsString]) -> Option<ExitCode> {
    match texts.named(words) {
        Named::Text(text) => Some(write(texts.name, text)),
        Named::NoShell => {
            let _ = writeln!(
                stderr(),
                "usage: {} --completions bash|zsh|fish",
                texts.name
            );
            Some(ExitCode::from(2))
        }
        Named::Nothing => None,
    }
}

/// Writes a text to standard output. A failure has the status that the programs' own output has then.
fn write(name: &str, text: &str) -> ExitCode {
    match stdout()
        .write_all(text.as_bytes())
        .and_then(|()| stdout().flush())
    {
        Ok(()) => ExitCode::SUCCESS,
        Err(why) if why.kind() == ErrorKind::BrokenPipe => ExitCode::from(141),
        Err(why) => {
            let _ = writeln!(stderr(), "{name}: {why}");
            ExitCode::from(2)
        }
    }
}

#[cfg(test)]
mod tests {
    use super::{Named, Texts};
    use std::ffi::OsString;

    #[test]
    fn arguments_name_a_text() {
        let texts: Texts = texts!(machinfo);
        let named = |words: &[&str]| {
            let words: Vec<OsString> = words.iter().map(OsString::from).collect();
            match texts.named(&words) {
                Named::Text(text) => format!("text {}", text.lines().next().unwrap_or_default()),
                other => format!("{other:?}"),
            }
        };
        for (words, wanted) in [
            (&["--manual"][..], "text NAME"),
            (&["--completions", "bash"], "text _machinfo() {"),
            (&["--completions", "zsh"], "text #compdef machinfo"),
            (&["--completions", "csh"], "NoShell"),
            (&["--completions"], "NoShell"),
            (&["--completions", "zsh", "a.macho"], "NoShell"),
            (&[], "Nothing"),
            (&["--manual", "a.macho"], "Nothing"),
            (&["a.macho", "--completions", "zsh"], "Nothing"),
        ] {
            assert_eq!(named(words), wanted, "{words:?}");
        }
        assert!(named(&["--completions", "fish"]).starts_with("text complete -c machinfo "));
    }
}
