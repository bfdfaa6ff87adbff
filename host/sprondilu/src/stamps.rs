//! "A stamp is 1 to 2^48-1 in 8 bytes: time times 65,536 plus client." In words it is `TIME:CLIENT`, and nothing else: a number alone
//! may be meant as a time just as well, and a read at the wrong one of the two finds nothing where there is something.

use crate::json::Json;

/// How many clients there are to each time.
const CLIENTS: u64 = 65_536;

/// The greatest stamp.
pub const GREATEST: u64 = (1 << 48) - 1;

/// The greatest time.
pub const GREATEST_TIME: u64 = GREATEST / CLIENTS;

pub fn time(stamp: u64) -> u64 {
    stamp / CLIENTS
}

pub fn client(stamp: u64) -> u64 {
    stamp % CLIENTS
}

/// The last stamp of a time: whoever reads there finds all that was written up to that time and at it.
pub fn last_at(time: u64) -> u64 {
    time * CLIENTS + (CLIENTS - 1)
}

/// A stamp as people write it, time and client: `2:1`. The version of a register that was never written is 0.
pub fn short(stamp: u64) -> String {
    if stamp == 0 {
        "0".to_string()
    } else {
        format!("{}:{}", time(stamp), client(stamp))
    }
}

/// The names that a stamp has for programs: of its number, of its time and of its client, which stand beside each other.
pub type Names = [&'static str; 3];
pub const STAMP: Names = ["stamp", "time", "client"];
pub const RETRY: Names = ["retry_stamp", "retry_time", "retry_client"];
pub const VERSION: Names = ["version", "version_time", "version_client"];
pub const READ: Names = ["read_stamp", "read_time", "read_client"];

/// A stamp for a program; null for none. The version 0 of a register that was never written is no stamp: it has neither time nor
/// client.
pub fn json(
    [number, its_time, its_client]: Names,
    stamp: Option<u64>,
) -> Vec<(&'static str, Json)> {
    let or_null = |part: Option<u64>| part.map_or(Json::Null, Json::from);
    let written = stamp.filter(|stamp| *stamp > 0);
    vec![
        (number, or_null(stamp)),
        (its_time, or_null(written.map(time))),
        (its_client, or_null(written.map(client))),
    ]
}

/// What a user types a stamp for, which decides what he is told if it is none.
#[derive(Clone, Copy, PartialEq, Eq)]
pub enum Typed {
    Transaction,
    Read,
    Retry,
    /// The stamp of the write that was read, or 0 for a register that nobody had written: 0 is no stamp, so it cannot be mistaken.
    Version,
}

impl Typed {
    fn form(self) -> &'static str {
        match self {
            Typed::Transaction => "a stamp is TIME:CLIENT",
            Typed::Read => "a stamp is TIME:CLIENT, or --at TIME in its place",
            Typed::Retry => "a retry stamp is TIME:CLIENT",
            Typed::Version => "a version is TIME:CLIENT, or 0 for never written",
        }
    }
}

/// The stamp that words are, or what is wrong with them.
pub fn typed(words: &str, what: Typed) -> Result<u64, String> {
    let found = match (words.split_once(':'), number(words)) {
        (Some((time, client)), _) => of_parts(time, client),
        (None, Some(0)) if what == Typed::Version => Ok(0),
        (None, Some(number)) => Err(alone(words, number, what)),
        (None, None) => Err(format!("'{}' is none", words)),
    };
    found.map_err(|wrong| format!("{}; {}", what.form(), wrong))
}

fn of_parts(time: &str, client: &str) -> Result<u64, String> {
    if time.is_empty() || client.is_empty() {
        let missing = if time.is_empty() { "time" } else { "client" };
        return Err(format!(
            "the {} is missing in '{}:{}'",
            missing, time, client
        ));
    }
    let time = number_up_to(time, "a time", GREATEST_TIME)?;
    let client = number_up_to(client, "a client", CLIENTS - 1)?;
    match time * CLIENTS + client {
        0 => Err("0:0 is no stamp, the first is 0:1".to_string()),
        stamp => Ok(stamp),
    }
}

/// A number without a colon may be a stamp as one number, or a time. Whichever is possible is named, and neither is taken.
fn alone(words: &str, number: u64, what: Typed) -> String {
    let or_at = match what {
        Typed::Read => format!(", or --at {}", words),
        _ => String::new(),
    };
    let mut hints = Vec::new();
    if (1..=GREATEST).contains(&number) {
        hints.push(format!("as one number it would be {}", short(number)));
    }
    if number <= GREATEST_TIME {
        hints.push(format!(
            "as a time, say which client: {}:CLIENT{}",
            words, or_at
        ));
    } else {
        hints.push(format!("times go from 0 to {}", GREATEST_TIME));
    }
    format!("{} alone is no stamp: {}", words, hints.join("; "))
}

/// A number from 0 to the greatest that is allowed, or what is wrong with the words; `what` names it.
pub fn number_up_to(words: &str, what: &str, greatest: u64) -> Result<u64, String> {
    let found = number(words).filter(|number| *number <= greatest);
    found.ok_or_else(|| {
        format!(
            "{} is a number from 0 to {}, not '{}'",
            what, greatest, words
        )
    })
}

/// A number in digits, or in hexadecimal ones behind `0x`. No sign and no space.
pub fn number(words: &str) -> Option<u64> {
    let (digits, base) = match words.strip_prefix("0x") {
        Some(digits) => (digits, 16),
        None => (words, 10),
    };
    if digits.starts_with('+') {
        return None;
    }
    u64::from_str_radix(digits, base).ok()
}
