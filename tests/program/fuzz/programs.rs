//! Runs the programs on files in a folder of the thread's own.

use std::collections::BTreeMap;
use std::ffi::OsString;
use std::fs;
use std::os::unix::ffi::OsStringExt;
use std::os::unix::fs::symlink;
use std::path::{Path, PathBuf};
use std::process::{Command, Stdio};

pub type Word = Vec<u8>;

pub fn word(value: impl ToString) -> Word {
    value.to_string().into_bytes()
}

/// How a program ended, and what it said.
pub struct Ran {
    pub status: i32,
    pub said: Vec<u8>,
}

impl Ran {
    pub fn lines(&self) -> String {
        String::from_utf8_lossy(&self.said).into_owned()
    }
}

/// What a case needs: the programs, a folder for files, and what was run.
pub struct Bench {
    programs: PathBuf,
    pub folder: PathBuf,
    /// The command lines of the case, to repeat them.
    pub history: Vec<String>,
    /// How often the programs answered what: by program and command, the front of the answer.
    pub answers: BTreeMap<String, u64>,
    /// How often something was looked at that only some cases have.
    pub looks: BTreeMap<&'static str, u64>,
}

/// What a case found: nothing, that it was too large for the model, or a difference.
pub enum Fault {
    Skipped,
    Differs(String),
}

impl From<String> for Fault {
    fn from(what: String) -> Self {
        Fault::Differs(what)
    }
}

pub type Found = Result<(), Fault>;

impl Bench {
    pub fn new(programs: &Path, folder: PathBuf) -> Self {
        Bench { programs: programs.to_path_buf(), folder, history: Vec::new(), answers: BTreeMap::new(), looks: BTreeMap::new() }
    }

    pub fn look(&mut self, what: &'static str) {
        *self.looks.entry(what).or_default() += 1;
    }

    /// An empty folder for the next case.
    pub fn begin(&mut self) {
        self.history.clear();
        if let Ok(files) = fs::read_dir(&self.folder) {
            files.flatten().for_each(|file| drop(fs::remove_file(file.path())));
        }
        fs::create_dir_all(&self.folder).expect("a folder can be made");
    }

    /// A file that no case makes itself and no command line names.
    pub fn unnamed_file(&self) -> Option<String> {
        let names = fs::read_dir(&self.folder).ok()?.flatten().map(|file| file.file_name().into_vec().escape_ascii().to_string());
        let is_named = |name: &String| self.history.iter().any(|line| line.contains(name));
        let is_own = |name: &String| name.starts_with("in.") || name == "old.gr" || name == "cert";
        names.filter(|name| !is_own(name)).find(|name| !is_named(name))
    }

    pub fn path(&self, name: &str) -> Word {
        self.folder.join(name).into_os_string().into_vec()
    }

    pub fn write(&self, name: &str, bytes: &[u8]) {
        fs::write(self.folder.join(name), bytes).expect("a file can be written");
    }

    /// Makes another name for a file that is there. Answers whether it did.
    pub fn link(&self, old: &str, new: &str, is_symbolic: bool) -> bool {
        let (old, new) = (self.folder.join(old), self.folder.join(new));
        old.exists() && if is_symbolic { symlink(old, new) } else { fs::hard_link(old, new) }.is_ok()
    }

    pub fn read(&self, name: &str) -> Option<Vec<u8>> {
        fs::read(self.folder.join(name)).ok()
    }

    /// Runs a program. That it says nothing on standard error is part of each case.
    pub fn run(&mut self, program: &str, words: &[Word]) -> Result<Ran, Fault> {
        self.run_into(program, words, Stdio::piped())
    }

    fn run_into(&mut self, program: &str, words: &[Word], report: Stdio) -> Result<Ran, Fault> {
        let shown = words.iter().map(|word| format!("'{}'", word.escape_ascii()));
        self.history.push(format!("{program} {}", shown.collect::<Vec<_>>().join(" ")));
        let arguments = words.iter().map(|word| OsString::from_vec(word.clone()));
        let mut command = Command::new(program_in(&self.programs, program));
        // so that files with names that are no paths come and go with the case
        command.current_dir(&self.folder);
        let ended = command.args(arguments).stdin(Stdio::null()).stdout(report).stderr(Stdio::piped()).output();
        let ended = ended.map_err(|error| Fault::Differs(format!("{program} can't be run: {error}")))?;
        if !ended.stderr.is_empty() {
            return Err(Fault::Differs(format!("standard error: {}", ended.stderr.escape_ascii())));
        }
        let status = ended.status.code().ok_or_else(|| Fault::Differs(format!("it was ended: {}", ended.status)))?;
        let first_word = words.first().map_or(String::new(), |word| String::from_utf8_lossy(word).into_owned());
        self.count_answer(program, &first_word, status, &ended.stdout);
        Ok(Ran { status, said: ended.stdout })
    }

    /// Runs a program whose report goes to the file that it is to make, which it may not do.
    pub fn expect_reporting_into(&mut self, program: &str, words: &[Word], name: &str) -> Found {
        let file = fs::File::create(self.folder.join(name)).expect("a file can be made");
        let ran = self.run_into(program, words, file.into())?;
        same("the status with an output as report", ran.status, 7)?;
        self.expect_file(name, Some(b"refused 7\n"))
    }

    /// Runs a program whose report can't be written.
    pub fn expect_unheard(&mut self, program: &str, words: &[Word], status: i32) -> Found {
        let full = fs::OpenOptions::new().write(true).open("/dev/full").expect("a full device");
        let ran = self.run_into(program, words, full.into())?;
        same("the status without a report", ran.status, status)
    }

    /// Counts an answer by what tells its kind: the number of a reason or a refusal.
    fn count_answer(&mut self, program: &str, first_word: &str, status: i32, said: &[u8]) {
        let said = String::from_utf8_lossy(said);
        let kind = match status {
            0 => "done".to_string(),
            1 => said.split_whitespace().take(2).collect::<Vec<_>>().join(" "),
            3 | 4 | 9 => said.split_whitespace().take(3).collect::<Vec<_>>().join(" "),
            _ => format!("refused {status}"),
        };
        let command = if program == "grouter" && status != 2 { first_word } else { program };
        *self.answers.entry(format!("{command}: {kind}")).or_default() += 1;
    }

    /// Runs a program whose status and lines are determined.
    pub fn expect(&mut self, program: &str, words: &[Word], status: i32, lines: &[u8]) -> Found {
        let ran = self.run(program, words)?;
        if ran.status == status && ran.said == lines {
            return Ok(());
        }
        Err(Fault::Differs(format!(
            "status {} with `{}`, and not {status} with `{}`",
            ran.status,
            ran.said.escape_ascii(),
            lines.escape_ascii()
        )))
    }

    /// Compares a file with what it is to be; none where there is to be no file.
    pub fn expect_file(&self, name: &str, wanted: Option<&[u8]>) -> Found {
        let found = self.read(name);
        if found.as_deref() == wanted {
            return Ok(());
        }
        let shown = |bytes: Option<&[u8]>| bytes.map_or("no file".to_string(), |bytes| format!("`{}`", bytes.escape_ascii()));
        Err(Fault::Differs(format!("{name} is {}, and not {}", shown(found.as_deref()), shown(wanted))))
    }
}

/// A program in a folder of programs, or where the gate leaves it in a folder of crates.
pub fn program_in(folder: &Path, program: &str) -> PathBuf {
    let of_crate = folder.join(program).join("out").join(program);
    if of_crate.is_file() { of_crate } else { folder.join(program) }
}

pub fn differs<T>(what: impl ToString) -> Result<T, Fault> {
    Err(Fault::Differs(what.to_string()))
}

pub fn same<T: PartialEq + std::fmt::Debug>(what: &str, found: T, wanted: T) -> Found {
    if found == wanted {
        return Ok(());
    }
    differs(format!("{what}: {found:?}, and not {wanted:?}"))
}
