//! Why a command ends without success.

pub enum Failure {
    /// A refusal with its number, already printed: exit status 1.
    Refused,
    /// Arguments that cannot be: what is wrong, and how the command is used. Exit status 2.
    Usage(String, &'static str),
    /// A file that cannot be read or written, and the like: exit status 2.
    Error(String),
    /// Nobody reads standard output any more: exit status 2, and nothing to say to anybody.
    Quiet,
}

impl From<String> for Failure {
    fn from(message: String) -> Failure {
        Failure::Error(message)
    }
}

impl Failure {
    /// What is still to be said about it, by lines.
    pub fn words(&self) -> String {
        match self {
            Failure::Usage(message, usage) => format!("boomcrutch: {message}\nusage: {usage}\n"),
            Failure::Error(message) => format!("boomcrutch: {message}\n"),
            Failure::Refused | Failure::Quiet => String::new(),
        }
    }
}
