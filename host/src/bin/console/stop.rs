//! How stop is pressed: by the line `stop` on standard input, or so long after each call's start.

use morphelai::programs::network::LOOK;
use morphelai::programs::{complain, Failure};
use std::io::{self, BufRead, Read};
use std::sync::mpsc::{sync_channel, Receiver, SyncSender, TryRecvError};
use std::thread;
use std::time::{Duration, Instant};

/// How often it is looked whether a line has come, while more can come.
const LOOK_FOR_LINES: Duration = Duration::from_millis(20);
/// How many lines are read before the first of them is looked at.
pub const LINES_READ_AHEAD: usize = 16;
/// The most bytes that are taken of a line; the rest is passed over.
const LONGEST_LINE: usize = 200;

/// Both ways to press stop.
pub struct Stop {
    after: Option<Duration>,
    due: Option<Instant>,
    /// The lines of standard input; none after its end.
    lines: Option<Receiver<Line>>,
}

#[derive(Debug, PartialEq, Eq)]
enum Line {
    Stop,
    /// Something else, and what is to be told of it.
    Other(String),
}

impl Stop {
    /// Begins to read standard input. Stop is also pressed so long after each call's start, where that is given.
    pub fn new(after: Option<Duration>) -> Result<Stop, Failure> {
        let (sender, lines) = sync_channel(LINES_READ_AHEAD);
        thread::Builder::new()
            .spawn(move || read_lines(&mut io::stdin().lock(), &sender))
            .map_err(|error| Failure::system("cannot read standard input beside the calls", &error))?;
        Ok(Stop { after, due: None, lines: Some(lines) })
    }

    /// A call starts.
    pub fn call_starts(&mut self, now: Instant) {
        self.due = self.after.map(|after| now + after);
    }

    /// Whether stop is pressed now, each time once. Looks at one line, and tells of it where it is something else.
    pub fn is_pressed(&mut self, now: Instant) -> bool {
        if self.due.is_some_and(|due| due <= now) {
            self.due = None;
            return true;
        }
        match self.lines.as_ref().map_or(Err(TryRecvError::Disconnected), Receiver::try_recv) {
            Ok(Line::Stop) => return true,
            Ok(Line::Other(text)) => complain(&format!("console: {text}")),
            Err(TryRecvError::Disconnected) => self.lines = None,
            Err(TryRecvError::Empty) => {}
        }
        false
    }

    /// When to look again.
    pub fn until(&self, now: Instant) -> Instant {
        let look = now + if self.lines.is_some() { LOOK_FOR_LINES } else { LOOK };
        self.due.map_or(look, |due| due.min(look))
    }
}

/// Reads lines until the input ends, or nobody takes them any more.
fn read_lines(input: &mut impl BufRead, lines: &SyncSender<Line>) {
    loop {
        let (line, is_last) = match read_line(input) {
            Ok(Some(line)) => (line, false),
            Ok(None) => return,
            Err(error) => (Line::Other(format!("cannot read standard input: {error}")), true),
        };
        if lines.send(line).is_err() || is_last {
            return;
        }
    }
}

/// The next line; none at the end of the input.
fn read_line(input: &mut impl BufRead) -> io::Result<Option<Line>> {
    let mut bytes = Vec::new();
    input.by_ref().take(LONGEST_LINE as u64).read_until(b'\n', &mut bytes)?;
    if bytes.is_empty() {
        return Ok(None);
    }
    if bytes.len() == LONGEST_LINE && !bytes.ends_with(b"\n") {
        input.skip_until(b'\n')?;
        return Ok(Some(Line::Other(format!("not stop: a line of {LONGEST_LINE} bytes or more; the calls go on"))));
    }
    let text = String::from_utf8_lossy(&bytes);
    let word = text.trim();
    Ok(Some(match word.eq_ignore_ascii_case("stop") {
        true => Line::Stop,
        false => Line::Other(format!("not stop: {word:?}; the calls go on")),
    }))
}

#[cfg(test)]
mod tests {
    use super::*;

    /// What is read of an input, all of it.
    fn lines_of(mut input: &[u8]) -> Vec<Line> {
        let (sender, lines) = sync_channel(100);
        read_lines(&mut input, &sender);
        drop(sender);
        lines.iter().collect()
    }

    fn other(text: &str) -> Line {
        Line::Other(format!("not stop: {text}; the calls go on"))
    }

    #[test]
    fn stop_is_read_with_and_without_an_end_of_line() {
        assert_eq!(lines_of(b""), []);
        assert_eq!(lines_of(b"stop"), [Line::Stop]);
        assert_eq!(lines_of(b"stop\n Stop \r\nSTOP"), [Line::Stop, Line::Stop, Line::Stop]);
    }

    #[test]
    fn another_line_is_told_and_the_next_is_read() {
        assert_eq!(lines_of(b"\nstpo\nstop\n"), [other("\"\""), other("\"stpo\""), Line::Stop]);
        assert_eq!(lines_of(b"\xff\0\x1b[2J\nstop"), [other("\"\u{fffd}\\0\\u{1b}[2J\""), Line::Stop]);
    }

    #[test]
    fn a_long_line_is_told_once_whatever_its_end() {
        let long = other("a line of 200 bytes or more");
        assert_eq!(lines_of(&[b'x'; 100_000]), [long]);
        let input = [&[b' '; 200][..], b"stop\nstop\n", &[b' '; 195], b"stop\n"].concat();
        let long = other("a line of 200 bytes or more");
        assert_eq!(lines_of(&input), [long, Line::Stop, Line::Stop]);
    }

    #[test]
    fn an_input_that_cannot_be_read_is_told_once() {
        struct Broken;
        impl Read for Broken {
            fn read(&mut self, _: &mut [u8]) -> io::Result<usize> {
                Err(io::Error::other("broken"))
            }
        }
        let (sender, lines) = sync_channel(100);
        read_lines(&mut io::BufReader::new(Broken), &sender);
        drop(sender);
        let told: Vec<Line> = lines.iter().collect();
        assert_eq!(told, [Line::Other(String::from("cannot read standard input: broken"))]);
    }

    #[test]
    fn stop_is_pressed_once_after_each_start_and_once_for_each_line() {
        let (sender, lines) = sync_channel(100);
        let mut stop = Stop { after: Some(LOOK), due: None, lines: Some(lines) };
        let now = Instant::now();
        assert!(!stop.is_pressed(now));
        assert_eq!(stop.until(now), now + LOOK_FOR_LINES);
        stop.call_starts(now);
        assert!(!stop.is_pressed(now + LOOK / 2));
        assert!(stop.is_pressed(now + LOOK) && !stop.is_pressed(now + LOOK));
        read_lines(&mut &b"stop\nstop"[..], &sender);
        drop(sender);
        assert!(stop.is_pressed(now) && stop.is_pressed(now) && !stop.is_pressed(now) && !stop.is_pressed(now));
        assert_eq!(stop.until(now), now + LOOK);
    }
}
