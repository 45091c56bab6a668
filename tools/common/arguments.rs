//! How a tool ends that cannot read its arguments.

/// What was read. If nothing was, the reason goes to standard error, and the program ends with 2.
pub fn or_end<T>(read: Result<T, String>) -> T {
    read.unwrap_or_else(|reason| {
        eprintln!("{reason}");
        std::process::exit(2);
    })
}
