//! A repository of its own for the checker, outside this one: a copy of crates/semantics with what facts need of it, and
//! crates of facts.

use std::collections::BTreeSet;
use std::env;
use std::fs;
use std::io;
use std::path::{Path, PathBuf};
use std::process::{self, Command};

/// The module of proofs that facts are told with.
const CASES: &str = "Cases";

/// The function that a crate must have.
const FUNCTION: &str = "#![tactic(auto)]

// The function is the place where the check starts.
pub fn facts_hold() -> bool {
    true
}
";

/// An error of the checker: which module, counted from 0, and the message; and whether it stopped before it could tell.
pub struct Refusal {
    pub module: usize,
    pub text: String,
    pub out_of_steps: bool,
}

/// What a check came to.
pub struct Checked {
    pub admitted: bool,
    pub errors: Vec<Refusal>,
    pub output: String,
}

pub struct Scratch {
    folder: PathBuf,
    crates: Vec<String>,
}

/// The checker's identity.
pub fn version() -> Result<String, String> {
    let output = rt(Path::new("."), &["version"])?;
    Ok(output.1.trim().to_string())
}

/// Runs `rt`: whether it ended well, and all that it wrote.
fn rt(folder: &Path, args: &[&str]) -> Result<(bool, String), String> {
    let run = Command::new("rt")
        .args(args)
        .current_dir(folder)
        .env("RT_CUT", "0")
        .output();
    match run {
        Ok(output) => {
            let both = [output.stdout, output.stderr].concat();
            let text = String::from_utf8_lossy(&both).into_owned();
            Ok((output.status.success(), text))
        }
        Err(e) if e.kind() == io::ErrorKind::NotFound => {
            Err("the checker `rt` is not on the PATH: nothing checked".to_string())
        }
        Err(e) => Err(format!("rt: {e}")),
    }
}

fn repository() -> PathBuf {
    Path::new(env!("CARGO_MANIFEST_DIR")).join("..")
}

/// Whether the folder is empty, or not there yet, and outside the tree.
fn is_free(folder: &Path) -> io::Result<bool> {
    let folder = env::current_dir()?.join(folder);
    let tree = repository().canonicalize()?;
    let above = folder.ancestors().find_map(|f| f.canonicalize().ok());
    let outside = above.is_some_and(|f| !f.starts_with(tree));
    Ok(outside && (!folder.exists() || fs::read_dir(folder)?.next().is_none()))
}

impl Scratch {
    /// A new folder with the copy of crates/semantics.
    pub fn new(seed: u64, keep: Option<&Path>) -> Result<Self, String> {
        let folder = match keep {
            Some(folder) => folder.to_path_buf(),
            None => env::temp_dir().join(format!("cyrs-facts-{seed}-{}", process::id())),
        };
        let said = |e: io::Error| format!("{}: {e}", folder.display());
        if !is_free(&folder).map_err(said)? {
            let shown = folder.display();
            return Err(format!("{shown}: not an empty folder outside the tree"));
        }
        let from = repository().join("crates/semantics");
        copy_semantics(&from, &folder.join("crates/semantics"))
            .map_err(|e| format!("{}: {e}", from.display()))?;
        let folder = folder.canonicalize().map_err(said)?;
        let crates = Vec::new();
        Ok(Scratch { folder, crates })
    }

    pub fn folder(&self) -> &Path {
        &self.folder
    }

    /// Writes a crate of these modules over any of its name.
    pub fn write_crate(
        &mut self,
        name: &str,
        modules: impl IntoIterator<Item = String>,
    ) -> Result<(), String> {
        let folder = self.folder.join("crates").join(name);
        if !self.crates.iter().any(|c| c == name) {
            self.crates.push(name.to_string());
        }
        self.write_files(&folder, modules)
            .map_err(|e| format!("{}: {e}", folder.display()))
    }

    fn write_files(
        &self,
        folder: &Path,
        modules: impl IntoIterator<Item = String>,
    ) -> io::Result<()> {
        if folder.exists() {
            fs::remove_dir_all(folder)?;
        }
        let (src, proofs) = (folder.join("src"), folder.join("proofs"));
        fs::create_dir_all(&src)?;
        fs::create_dir_all(&proofs)?;
        fs::write(src.join("lib.rt"), FUNCTION)?;
        let mut root = String::new();
        for (i, module) in modules.into_iter().enumerate() {
            fs::write(proofs.join(format!("{}.antt", module_name(i))), module)?;
            root.push_str(&format!("pub mod {}\n", module_name(i)));
        }
        fs::write(proofs.join("Lib.antt"), root)?;
        let mut list = String::from("semantics:\n");
        for name in &self.crates {
            list.push_str(&format!("{name}: semantics\n"));
        }
        fs::write(self.folder.join("crates.txt"), list)
    }

    /// Has the checker prove a crate.
    pub fn check(&self, name: &str) -> Result<Checked, String> {
        let (admitted, output) = rt(&self.folder.join("crates").join(name), &["check"])?;
        let errors = refusals(&output);
        Ok(Checked {
            admitted,
            errors,
            output,
        })
    }

    /// Removes the folder unless it is to be kept.
    pub fn finish(self, keep: bool) {
        if keep {
            println!("the scratch repository is {}", self.folder.display());
        } else if let Err(e) = fs::remove_dir_all(&self.folder) {
            println!("{}: {e}", self.folder.display());
        }
    }
}

fn module_name(i: usize) -> String {
    format!("Facts{}", i + 1)
}

/// The errors that the checker wrote, by module: `PATH/FactsN.antt:LINE:COLUMN: error: MESSAGE` and indented lines.
fn refusals(output: &str) -> Vec<Refusal> {
    let mut errors: Vec<Refusal> = Vec::new();
    let mut goes_on = false;
    for line in output.lines() {
        if let Some(module) = erring_module(line) {
            errors.push(Refusal {
                module,
                text: line.to_string(),
                out_of_steps: line.contains("stopped at the step limit"),
            });
            goes_on = true;
        } else if goes_on && line.starts_with(' ') {
            if let Some(error) = errors.last_mut() {
                error.text.push('\n');
                error.text.push_str(line);
            }
        } else {
            goes_on = false;
        }
    }
    errors.sort_by_key(|e| e.module);
    errors
}

fn erring_module(line: &str) -> Option<usize> {
    let (place, _) = line.split_once(": error: ")?;
    let (_, file) = place.rsplit_once("/Facts")?;
    let (number, _) = file.split_once(".antt")?;
    number.parse::<usize>().ok()?.checked_sub(1)
}

/// Copies src, specs and the proof modules that `Cases` needs: the other proofs take time and say nothing of the facts.
fn copy_semantics(from: &Path, to: &Path) -> io::Result<()> {
    for part in ["src", "specs"] {
        copy_folder(&from.join(part), &to.join(part))?;
    }
    let (from, to) = (from.join("proofs"), to.join("proofs"));
    let needed = needed_modules(&from)?;
    fs::create_dir_all(&to)?;
    let mut root = String::new();
    for line in fs::read_to_string(from.join("Lib.antt"))?.lines() {
        let Some(name) = line.strip_prefix("pub mod ") else {
            continue;
        };
        if needed.contains(name) {
            let file = format!("{name}.antt");
            fs::copy(from.join(&file), to.join(&file))?;
            root.push_str(&format!("{line}\n"));
        }
    }
    fs::write(to.join("Lib.antt"), root)
}

fn copy_folder(from: &Path, to: &Path) -> io::Result<()> {
    fs::create_dir_all(to)?;
    for entry in fs::read_dir(from)? {
        let entry = entry?;
        let target = to.join(entry.file_name());
        if entry.file_type()?.is_dir() {
            copy_folder(&entry.path(), &target)?;
        } else {
            fs::copy(entry.path(), target)?;
        }
    }
    Ok(())
}

/// `Cases` and the modules of proofs that it uses, and that these use.
fn needed_modules(proofs: &Path) -> io::Result<BTreeSet<String>> {
    let mut needed = BTreeSet::new();
    let mut open = vec![CASES.to_string()];
    while let Some(name) = open.pop() {
        let text = fs::read_to_string(proofs.join(format!("{name}.antt")))?;
        for line in text.lines() {
            if let Some(rest) = line.strip_prefix("use Rattle.semantics.proofs.") {
                let end = rest.find('.').unwrap_or(rest.len());
                open.push(rest[..end].to_string());
            }
        }
        needed.insert(name.clone());
        open.retain(|m| !needed.contains(m));
    }
    Ok(needed)
}
