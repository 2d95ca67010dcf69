//! Arguments: `--name value` and `--name`, each at most once, and none that a program does not know.

use super::network::Faults;
use super::Failure;
use std::ffi::OsString;
use std::net::SocketAddrV4;
use std::ops::RangeInclusive;
use std::time::Duration;

/// The options that both programs have, with a value and without.
const SHARED: [&str; 7] = ["--loss", "--delay", "--repeat", "--seed", "--pcap", "--seconds", "--calls"];
const SHARED_PLAIN: [&str; 2] = ["--trace", "--help"];

/// The arguments of a program by name.
pub struct Arguments {
    given: Vec<(String, String)>,
}

impl Arguments {
    /// Takes the words of a command line, for a program that has these options beside the shared ones.
    pub fn parse(words: Vec<OsString>, valued: &[&str], plain: &[&str]) -> Result<Arguments, Failure> {
        let mut arguments = Arguments { given: Vec::new() };
        let mut words = words.into_iter();
        while let Some(word) = words.next() {
            let name = text(word)?;
            let known = |list: &[&str], shared: &[&str]| list.iter().chain(shared).any(|&known| known == name);
            let value = if known(plain, &SHARED_PLAIN) {
                String::new()
            } else if known(valued, &SHARED) {
                value_of(&name, words.next())?
            } else {
                return Err(Failure::Usage(format!("unknown argument {name:?}")));
            };
            if arguments.has(&name) {
                return Err(Failure::Usage(format!("{name} is given twice")));
            }
            arguments.given.push((name, value));
        }
        Ok(arguments)
    }

    /// Whether an option is given.
    pub fn has(&self, name: &str) -> bool {
        self.value(name).is_some()
    }

    /// An option's value as it is.
    pub fn value(&self, name: &str) -> Option<&str> {
        self.given.iter().find(|(given, _)| given == name).map(|(_, value)| value.as_str())
    }

    /// An option's value as a number in a range.
    pub fn number(&self, name: &str, range: RangeInclusive<u64>) -> Result<Option<u64>, Failure> {
        let Some(value) = self.value(name) else { return Ok(None) };
        match value.parse() {
            Ok(number) if range.contains(&number) => Ok(Some(number)),
            _ => Err(Failure::Usage(format!(
                "{name} is a number from {} to {}, not {value:?}",
                range.start(),
                range.end()
            ))),
        }
    }

    /// An option's value as a span of time: so many times the unit, at least once and at most a day.
    pub fn span(&self, name: &str, unit: Duration) -> Result<Option<Duration>, Failure> {
        let most = Duration::from_secs(86_400).as_millis() / unit.as_millis().max(1);
        let number = self.number(name, 1..=most as u64)?;
        Ok(number.map(|number| unit * number as u32))
    }

    /// An option's value as an IPv4 address and port.
    pub fn address(&self, name: &str) -> Result<Option<SocketAddrV4>, Failure> {
        let Some(value) = self.value(name) else { return Ok(None) };
        let bad = |_| Failure::Usage(format!("{name} is ADDRESS:PORT, for instance 127.0.0.1:4000, not {value:?}"));
        value.parse().map(Some).map_err(bad)
    }

    /// How bad the network is to be made.
    pub fn faults(&self) -> Result<Faults, Failure> {
        let percent = |name| Ok(self.number(name, 0..=100)?.unwrap_or(0));
        Ok(Faults {
            loss: percent("--loss")?,
            delay: percent("--delay")?,
            repeat: percent("--repeat")?,
            seed: self.number("--seed", 0..=u64::MAX)?.unwrap_or(1),
        })
    }
}

/// The word behind an option; another option's name is no value.
fn value_of(name: &str, word: Option<OsString>) -> Result<String, Failure> {
    let value = word.map(text).transpose()?.filter(|value| !value.starts_with("--"));
    value.ok_or_else(|| Failure::Usage(format!("{name} has no value")))
}

fn text(word: OsString) -> Result<String, Failure> {
    word.into_string().map_err(|word| Failure::Usage(format!("an argument that is no text: {word:?}")))
}

#[cfg(test)]
mod tests {
    use super::*;

    fn parse(line: &str) -> Result<Arguments, Failure> {
        Arguments::parse(
            line.split_whitespace().map(OsString::from).collect(),
            &["--to", "--wait"],
            &["--idempotent"],
        )
    }

    fn refuses<T>(result: Result<T, Failure>) -> bool {
        matches!(result, Err(Failure::Usage(_)))
    }

    #[test]
    fn options_are_taken() {
        let arguments = parse("--to 127.0.0.1:40 --idempotent --loss 20 --wait 70").unwrap();
        assert!(arguments.has("--idempotent") && !arguments.has("--trace"));
        assert_eq!(arguments.address("--to").unwrap().unwrap().port(), 40);
        assert_eq!(arguments.faults().unwrap().loss, 20);
        assert_eq!(arguments.span("--wait", Duration::from_millis(1)), Ok(Some(Duration::from_millis(70))));
        assert_eq!(arguments.number("--calls", 1..=9), Ok(None));
    }

    #[test]
    fn bad_arguments_are_refused() {
        for line in ["--nonsense", "word", "--to", "--loss 1 --loss 2", "--idempotent yes", "--trace --trace"] {
            assert!(refuses(parse(line)), "{line}");
        }
        assert!(refuses(parse("--pcap --trace")));
    }

    #[test]
    fn what_is_told_of_a_bad_value_is_one_line() {
        let words = ["--loss", "1\n2"].map(OsString::from).to_vec();
        match Arguments::parse(words, &[], &[]).and_then(|arguments| arguments.faults()) {
            Err(Failure::Usage(text)) => assert!(!text.contains('\n'), "{text}"),
            _ => panic!("taken"),
        }
    }

    #[test]
    fn bad_values_are_refused() {
        for value in ["101", "-1", "x", "1.5", "18446744073709551616"] {
            assert!(refuses(parse(&format!("--loss {value}")).unwrap().faults()), "{value}");
        }
        for value in ["localhost", "127.0.0.1", "127.0.0.1:65536", ":40", "[::1]:40"] {
            assert!(refuses(parse(&format!("--to {value}")).unwrap().address("--to")), "{value}");
        }
        for value in ["0", "86401"] {
            let arguments = parse(&format!("--seconds {value}")).unwrap();
            assert!(refuses(arguments.span("--seconds", Duration::from_secs(1))), "{value}");
        }
    }

    #[cfg(unix)]
    #[test]
    fn an_argument_that_is_no_text_is_refused() {
        use std::os::unix::ffi::OsStringExt;
        assert!(refuses(Arguments::parse(vec![OsString::from_vec(vec![0xff])], &[], &[])));
    }
}
