//! Does the comparison see? Each slip is a small edit of a copy of this package, in the crate's source or in what stands
//! around it; the copy is built and compared with the unchanged oracle on the short lists, and a difference must show.

use std::fs;
use std::io;
use std::path::Path;
use std::path::PathBuf;
use std::process::Command;
use std::time::Duration;

use crate::Options;
use crate::run::Comparison;
use crate::run::SHORT;
use crate::run::grouped;
use crate::shrink;

/// A slip that makes the copy hang must not hold up the others. A list of `SHORT` takes a fraction of a second.
const TIME_LIMIT: Duration = Duration::from_secs(15);

struct Edit {
    file: String,
    old: String,
    new: String,
}

struct Slip {
    name: String,
    what: String,
    edits: Vec<Edit>,
}

/// A slip's file: what it does, then for each edit `in FILE`, `old`, the old text, `new`, the new text, `end`. Before
/// that, a line that begins with `#` is a remark.
fn read_slip(path: &Path) -> io::Result<Slip> {
    let name = path.file_stem().unwrap_or_default().to_string_lossy().into_owned();
    let text = fs::read_to_string(path)?;
    let mut slip = Slip { name, what: String::new(), edits: vec![] };
    let mut lines = text.lines().skip_while(|line| line.starts_with('#'));
    while let Some(line) = lines.next() {
        let Some(file) = line.strip_prefix("in ") else {
            slip.what += line;
            continue;
        };
        let mut until = |end: &str| -> String {
            lines.by_ref().take_while(|line| *line != end).map(|line| format!("{line}\n")).collect()
        };
        until("old");
        let old = until("new");
        let new = until("end");
        slip.edits.push(Edit { file: file.to_string(), old, new });
    }
    Ok(slip)
}

fn copy_tree(from: &Path, to: &Path) -> io::Result<()> {
    fs::create_dir_all(to)?;
    for entry in fs::read_dir(from)? {
        let entry = entry?;
        let target = to.join(entry.file_name());
        if entry.file_type()?.is_dir() {
            copy_tree(&entry.path(), &target)?;
        } else {
            fs::copy(entry.path(), target)?;
        }
    }
    Ok(())
}

/// A copy of this package with the slip in it, built: the program's path.
fn build(root: &Path, slip: &Slip) -> io::Result<PathBuf> {
    let copy = root.join("target/slips").join(&slip.name);
    for part in ["src", "asyncband"] {
        copy_tree(&root.join("oracle").join(part), &copy.join(part))?;
    }
    for part in ["Cargo.toml", "Cargo.lock"] {
        fs::copy(root.join("oracle").join(part), copy.join(part))?;
    }
    for edit in &slip.edits {
        let path = copy.join(&edit.file);
        let text = fs::read_to_string(&path)?;
        if text.matches(&edit.old).count() != 1 {
            return Err(io::Error::other(format!("{}: its old text does not stand once in {}", slip.name, edit.file)));
        }
        fs::write(&path, text.replace(&edit.old, &edit.new))?;
    }
    let built = root.join("target/slips/build");
    let status = Command::new("cargo")
        .args(["build", "--quiet", "--release", "--offline", "--bin", "oracle", "--target-dir"])
        .arg(&built)
        .arg("--manifest-path")
        .arg(copy.join("Cargo.toml"))
        .env("RUSTFLAGS", "-Awarnings")
        // These run for a second or two each: what counts is how long they take to build.
        .env("CARGO_PROFILE_RELEASE_OPT_LEVEL", "1")
        .status()?;
    if !status.success() {
        return Err(io::Error::other(format!("{}: the copy with this slip does not build", slip.name)));
    }
    let program = copy.join("oracle");
    fs::copy(built.join("release/oracle"), &program)?;
    program.canonicalize()
}

/// True if every slip is caught.
pub fn run(options: &Options) -> io::Result<bool> {
    let mut paths: Vec<PathBuf> = vec![];
    for entry in fs::read_dir(options.root.join("oracle/slips"))? {
        let path = entry?.path();
        let is_slip = path.extension().is_some_and(|extension| extension == "slip");
        let is_wanted =
            options.only.as_ref().is_none_or(|only| path.file_stem().is_some_and(|name| name == only.as_str()));
        if is_slip && is_wanted {
            paths.push(path);
        }
    }
    paths.sort();
    let mut caught = 0;
    for path in &paths {
        let slip = read_slip(path)?;
        let program = match build(&options.root, &slip) {
            Ok(program) => program,
            Err(trouble) => {
                println!("NOT CAUGHT  {trouble}");
                continue;
            }
        };
        let mut comparison = Comparison::new(&program, TIME_LIMIT, false);
        let _ = comparison.plan(&SHORT, options.seed, 0);
        if let Some(failure) = comparison.failure {
            return Err(failure);
        }
        match &comparison.difference {
            Some(difference) => {
                caught += 1;
                let trouble = difference.trouble.as_ref().map_or(String::new(), |trouble| format!(" ({trouble})"));
                println!("caught      {} after {} lines{trouble}: {}", slip.name, grouped(comparison.lines), slip.what);
                if options.only.is_some() {
                    let smallest = shrink::shrink(&program, &difference.list, difference.first)?;
                    println!("\n{}", shrink::show(&program, &smallest)?);
                }
            }
            None => println!("NOT CAUGHT  {} in {} lines: {}", slip.name, grouped(comparison.lines), slip.what),
        }
    }
    println!("{caught} of {} caught", paths.len());
    Ok(caught == paths.len() && !paths.is_empty())
}
