//! Runs each tool of the one program on each case's files, and compares its status, what it prints and tells, and the files afterwards with the independent
//! program.

mod uses;

use std::collections::BTreeMap;
use std::ops::Range;
use std::process::{Command, Output};

use independent::tools::{self, start, Ended};

use crate::folder::Folder;
use crate::play::difference;
use crate::Stop;

pub fn compare(
    seed: u64,
    numbers: Range<u64>,
    program: &str,
    words: &[String],
) -> Result<(), Stop> {
    let folder = Folder::new("tools")?;
    let mut ends: BTreeMap<String, [u64; 3]> = BTreeMap::new();
    for number in numbers {
        for (mut before, tool) in uses::uses(seed, number) {
            before.insert("old.bin".to_string(), b"old".to_vec());
            folder.fill(&before)?;
            let output = Command::new(program)
                .args(words)
                .args(&tool)
                .current_dir(&folder.path)
                .output()
                .map_err(|error| Stop::Failed(format!("{program} can't be run: {error}")))?;
            let mut after = before;
            let tool: Vec<&str> = tool.iter().map(String::as_str).collect();
            let ended = start(&tool, &mut after);
            let differs = |what: String| {
                let tool = tool.join(" ");
                Stop::Differs(format!("case {number} of seed {seed}, {tool}: {what}"))
            };
            same_end(&output, &ended).map_err(differs)?;
            same_files(&folder.files()?, &after).map_err(differs)?;
            ends.entry(tool[0].to_string()).or_default()[usize::from(ended.status)] += 1;
        }
    }
    for (tool, [done, failed, wrong]) in ends {
        println!("{tool}: {done} uses with status 0, {failed} with 1, {wrong} with 2");
    }
    Ok(())
}

fn same_end(output: &Output, ended: &Ended) -> Result<(), String> {
    let got = String::from_utf8_lossy(&output.stdout);
    if got != ended.said {
        return Err(difference(&got, &ended.said));
    }
    if output.status.code() != Some(i32::from(ended.status)) {
        return Err(format!(
            "it ended with {}, and {} is due",
            output.status, ended.status
        ));
    }
    let told = String::from_utf8_lossy(&output.stderr);
    let told: Vec<&str> = told.lines().collect();
    let is_told = match ended.status {
        2 => !told.is_empty(),
        _ => {
            told.len() == ended.told.len()
                && told
                    .iter()
                    .zip(&ended.told)
                    .all(|(line, start)| line.starts_with(start.as_str()))
        }
    };
    if !is_told {
        return Err(format!("it told {told:?}, and {:?} is due", ended.told));
    }
    Ok(())
}

fn same_files(got: &tools::Folder, wanted: &tools::Folder) -> Result<(), String> {
    if let Some(name) = got.keys().find(|name| !wanted.contains_key(*name)) {
        return Err(format!("the file {name} should not be there"));
    }
    match wanted
        .iter()
        .find(|(name, bytes)| got.get(*name) != Some(bytes))
    {
        Some((name, _)) => Err(format!("the file {name} should have other bytes")),
        None => Ok(()),
    }
}
