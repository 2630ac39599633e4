//! Asks a running front over its control socket.

use std::io::{self, BufRead, BufReader, Write};
use std::os::unix::net::UnixStream;
use std::path::Path;

use serde_json::{json, Value};

use crate::lines::line_of;
use crate::log::{reason, Ended};

const COLUMNS: [&str; 5] = ["group", "worker", "sessions", "clients", "lines"];

/// Sends this to a front and returns its answer.
fn answer(path: &Path, asked: &Value) -> Result<Value, Ended> {
    let ask = || -> io::Result<Vec<u8>> {
        let mut link = UnixStream::connect(path)?;
        link.write_all(&line_of(asked))?;
        let mut line = Vec::new();
        BufReader::new(link).read_until(b'\n', &mut line)?;
        Ok(line)
    };
    let shown = path.display();
    let line = ask().map_err(|error| Ended(format!("{shown}: {}", reason(&error))))?;
    let told: Value = serde_json::from_slice(&line).unwrap_or_default();
    match (told.is_object(), told["error"].as_str()) {
        (false, _) => Err(Ended(format!("{shown}: no answer of a front"))),
        (true, Some(code)) => Err(Ended(format!("{code}: {}", told["why"].as_str().unwrap_or_default()))),
        (true, None) => Ok(told),
    }
}

/// Moves a group to another worker; returns a line that says where the group is.
pub fn move_group(path: &Path, group: &str, worker: usize) -> Result<String, Ended> {
    let told = answer(path, &json!({"front": "move", "group": group, "worker": worker}))?;
    Ok(format!("{} is with worker {}\n", cell(&told["group"]), told["worker"]))
}

/// A table of the groups and the worker of each.
pub fn groups(path: &Path) -> Result<String, Ended> {
    let told = answer(path, &json!({"front": "groups"}))?;
    let rows = told["reply"].as_array().into_iter().flatten().map(|row| COLUMNS.map(|column| cell(&row[column])));
    let rows: Vec<[String; 5]> = std::iter::once(COLUMNS.map(String::from)).chain(rows).collect();
    let widths: Vec<usize> = (0..COLUMNS.len()).map(|at| rows.iter().map(|row| row[at].len()).max().unwrap_or(0)).collect();
    let line = |row: &[String; 5]| {
        let cells: Vec<String> =
            row.iter().zip(&widths).map(|(cell, width)| format!("{cell:width$}", width = *width)).collect();
        format!("{}\n", cells.join("  ").trim_end())
    };
    Ok(rows.iter().map(line).collect())
}

fn cell(value: &Value) -> String {
    value.as_str().map_or_else(|| value.to_string(), String::from)
}
