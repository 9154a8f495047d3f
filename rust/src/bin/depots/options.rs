//! The words of the call.

use std::ffi::OsString;

pub enum Call {
    Help,
    Version,
    Run(Options),
}

#[derive(Default)]
pub struct Options {
    /// The script's file; standard input where there is none.
    pub script: Option<OsString>,
    pub chart: bool,
    /// In words of the yard, and with what was ignored.
    pub tell: bool,
    pub svg: Option<OsString>,
}

/// The call that the words make, or why they make none.
pub fn read(words: impl Iterator<Item = OsString>) -> Result<Call, String> {
    let mut words = words;
    let mut options = Options::default();
    let mut named: Vec<OsString> = Vec::new();
    let mut only_names = false;
    while let Some(word) = words.next() {
        match word.to_str() {
            _ if only_names => named.push(word),
            Some("--") => only_names = true,
            Some("--help") => return Ok(Call::Help),
            Some("--version") => return Ok(Call::Version),
            Some("--chart") => options.chart = true,
            Some("--tell") => options.tell = true,
            Some("--svg") => options.svg = Some(svg_name(words.next())?),
            Some("-") => named.push(word),
            Some(other) if other.starts_with('-') => return Err(format!("`{other}` is no option")),
            _ => named.push(word),
        }
    }
    if named.len() > 1 {
        return Err("one script at a time".to_string());
    }
    options.script = named.pop().filter(|name| name != "-" || only_names);
    Ok(Call::Run(options))
}

/// Its ending is asked for, so that a forgotten FILE does not draw over the script that stands after it.
fn svg_name(word: Option<OsString>) -> Result<OsString, String> {
    let name = word.ok_or("--svg needs a FILE")?;
    if !name.to_string_lossy().ends_with(".svg") {
        return Err(format!("--svg: the name `{}` does not end in .svg", name.to_string_lossy()));
    }
    Ok(name)
}
