//! What the command lines say.

/// The words of a command line: pairs of a name and a value.
pub fn pairs(words: impl Iterator<Item = String>) -> Result<Vec<(String, String)>, String> {
    let words: Vec<String> = words.collect();
    let pair = |pair: &[String]| match pair {
        [name, value] => Ok((name.clone(), value.clone())),
        _ => Err(format!("{} wants a value", pair[0])),
    };
    words.chunks(2).map(pair).collect()
}

/// A number.
pub fn number(value: &str) -> Result<u64, String> {
    value
        .replace(['_', ','], "")
        .parse()
        .map_err(|_| format!("{value} is no number"))
}

/// The words of a command, at least one.
pub fn command(value: &str) -> Result<Vec<String>, String> {
    let words: Vec<String> = value.split_whitespace().map(String::from).collect();
    match words.is_empty() {
        true => Err("a command is wanted".to_string()),
        false => Ok(words),
    }
}
