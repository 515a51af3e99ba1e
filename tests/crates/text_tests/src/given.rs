// The names that a folder was given.
use outside::is_good_name;

/// The given name that is this one, if it is a file's name.
pub fn given_name<'a>(names: &'a [&'a str], name: &str) -> Option<&'a str> {
    for given in names {
        if *given == name && is_good_name(given.as_bytes()) {
            return Some(given);
        }
    }
    None
}
