//! One way to start a program: its words, its standard input, output and
//! error, and the calls that fail. What is expected is imagined from the same
//! description.

use super::errors::{EBADF, EFBIG, EILSEQ, EIO, EISDIR, ENOSPC, EPIPE};
use super::expected::{Expected, Imagined};
use super::faults::Faults;
use reader::Program;

/// Blocks in which a shell counts the size limit of files.
const LIMIT_BLOCK: usize = 512;

/// Pages of a small file system.
pub const PAGE: usize = 4_096;

#[derive(Clone, Debug)]
pub struct Situation {
    pub name: String,
    pub programs: Vec<Program>,
    /// The first words, if they are not those of every run.
    pub first: Option<Vec<Vec<u8>>>,
    pub words: Vec<Vec<u8>>,
    /// What the input's file holds.
    pub contents: Vec<u8>,
    /// The name of that file, in the scratch folder.
    pub file: Vec<u8>,
    /// Why the file that a word names cannot be opened.
    pub open_error: Option<i32>,
    pub input: Input,
    pub output: Output,
    pub error: ErrorOutput,
    pub faults: Faults,
}

/// Standard input.
#[derive(Clone, Copy, Debug, PartialEq, Eq)]
pub enum Input {
    /// The input's file.
    File,
    Empty,
    Closed,
    Folder,
}

/// Standard output.
#[derive(Clone, Copy, Debug, PartialEq, Eq)]
pub enum Output {
    Kept,
    Closed,
    /// A device that is always full.
    Full,
    /// A file of so many blocks at most.
    Limited(usize),
    /// A file on a small file system of so many pages.
    Disk(usize),
    /// A pipe whose reader goes away after so many bytes, and whether the
    /// program ignores the signal.
    Leaves {
        after: usize,
        ignored: bool,
    },
}

/// Standard error.
#[derive(Clone, Copy, Debug, PartialEq, Eq)]
pub enum ErrorOutput {
    Kept,
    Closed,
    Full,
    /// The same as standard output, so that the order shows.
    Joined,
}

impl Situation {
    /// Standard input holds this; nothing goes wrong.
    pub fn new(name: impl Into<String>, contents: &[u8]) -> Situation {
        let name = name.into();
        Situation {
            file: file_name(&name).into(),
            name,
            programs: Program::ALL.to_vec(),
            first: None,
            words: Vec::new(),
            contents: contents.to_vec(),
            open_error: None,
            input: Input::File,
            output: Output::Kept,
            error: ErrorOutput::Kept,
            faults: Faults::NONE,
        }
    }

    pub fn word(mut self, word: impl AsRef<[u8]>) -> Situation {
        self.words.push(word.as_ref().to_vec());
        self
    }

    /// `reply` alone, and its first words: how many bits it is to expect.
    pub fn reply<W: AsRef<[u8]>>(mut self, first: &[W]) -> Situation {
        self.programs = vec![Program::Reply];
        self.first = Some(first.iter().map(|word| word.as_ref().to_vec()).collect());
        self
    }

    /// The input's file is named by a word, and standard input is empty.
    pub fn named(mut self) -> Situation {
        self.input = Input::Empty;
        let file = self.file.clone();
        self.word(file)
    }

    /// A word names a file that cannot be opened.
    pub fn not_opened(mut self, word: impl AsRef<[u8]>, error: i32) -> Situation {
        self.open_error = Some(error);
        self.word(word)
    }

    pub fn input(mut self, input: Input) -> Situation {
        self.input = input;
        self
    }

    pub fn output(mut self, output: Output) -> Situation {
        self.output = output;
        self
    }

    pub fn error(mut self, error: ErrorOutput) -> Situation {
        self.error = error;
        self
    }

    pub fn faults(mut self, faults: Faults) -> Situation {
        self.faults = faults;
        self
    }

    /// The words with which a program is started: ahead of the situation's the
    /// first ones, or those of every run, but not where a text is asked for.
    pub fn words_of(&self, program: Program) -> Vec<&[u8]> {
        let words: Vec<&[u8]> = self.words.iter().map(|word| &word[..]).collect();
        if let Some(first) = &self.first {
            return first.iter().map(|word| &word[..]).chain(words).collect();
        }
        match words[..] {
            [b"--help" | b"--version"] => words,
            _ => [program.words(), &words].concat(),
        }
    }

    /// What the separate reader does.
    pub fn expected(&self, program: Program) -> Expected {
        self.expected_in(program, self.imagined())
    }

    /// What it does in the system as the library of the programs in Rattle
    /// shows it: files are opened by text alone, standard output is closed
    /// nowhere, and the signal of a closed pipe is ignored from the start on.
    pub fn expected_by_library(&self, program: Program) -> Expected {
        let mut system = self.imagined();
        if self.names_no_text() {
            system.open_error = Some(EILSEQ);
        }
        system.close_error = None;
        system.signals = false;
        self.expected_in(program, system)
    }

    fn expected_in(&self, program: Program, system: Imagined) -> Expected {
        let words = self.words_of(program);
        let mut expected = Expected::of(program, &words, system);
        if self.error != ErrorOutput::Kept {
            expected.said.clear();
        }
        expected
    }

    fn imagined(&self) -> Imagined<'_> {
        let (contents, read_error) = self.read();
        let mut system = Imagined::new(contents);
        system.open_error = self.open_error;
        system.read_error = read_error;
        system.write_error = match self.output {
            Output::Kept => self.faults.write_fails_at.map(|at| (at, ENOSPC)),
            Output::Closed => Some((0, EBADF)),
            Output::Full => Some((0, ENOSPC)),
            Output::Disk(pages) => Some((pages * PAGE, ENOSPC)),
            Output::Limited(blocks) => Some((blocks * LIMIT_BLOCK, EFBIG)),
            Output::Leaves { after, .. } => Some((after, EPIPE)),
        };
        system.stops_at = self.faults.write_stops_at;
        system.close_error = self.faults.close_error;
        system.joined = self.error == ErrorOutput::Joined;
        system.signals = matches!(self.output, Output::Leaves { ignored: false, .. });
        system
    }

    /// The bytes that reads give, and the error after them.
    fn read(&self) -> (&[u8], Option<i32>) {
        let stands_in = |word: &Vec<u8>| word == b"-" || word == b"/dev/stdin";
        let standard = self.words.iter().all(stands_in);
        match (self.input, self.faults.read_fails_at) {
            (Input::Closed, _) if standard => (&[], Some(EBADF)),
            (Input::Folder, _) if standard => (&[], Some(EISDIR)),
            (Input::Empty, _) if standard => (&[], None),
            (_, Some(at)) => (&self.contents[..at], Some(EIO)),
            // A folder that a word names has no contents.
            (_, None) if self.names_a_folder() => (&[], Some(EISDIR)),
            (_, None) => (&self.contents, None),
        }
    }

    /// Whether a word behind the first ones is no UTF-8.
    pub fn names_no_text(&self) -> bool {
        let no_text = |word: &Vec<u8>| std::str::from_utf8(word).is_err();
        self.words.iter().any(no_text)
    }

    fn names_a_folder(&self) -> bool {
        self.words == [b"folder".to_vec()] || self.words == [b".".to_vec()]
    }
}

/// A file's name for each name, other ones for other ones.
fn file_name(name: &str) -> String {
    name.chars()
        .map(|c| match c {
            ' ' => "-".to_string(),
            _ if c.is_ascii_alphanumeric() => c.to_string(),
            _ => format!("_{:x}_", u32::from(c)),
        })
        .collect()
}
