//! Rowset folders and delete vector files in a store's folder, beside what its manifest names.
use crate::source::failed;
use crate::Failed;
use seqapti::Snapshot;
use std::collections::BTreeSet;
use std::fs;
use std::io;
use std::path::Path;

const VECTORS: &str = "dv";

/// Names below the store's folder.
#[derive(Default)]
pub struct OnDisk {
    /// There, and named by nothing that stands.
    pub not_live: Vec<String>,
    /// Named, and not there.
    pub missing: Vec<String>,
}

impl OnDisk {
    pub fn of(folder: &Path, shown: &Snapshot) -> Result<OnDisk, Failed> {
        let mut live: BTreeSet<String> = shown.rowsets().map(|(t, r)| format!("{t}_{r}")).collect();
        live.extend(shown.dvs().map(|(t, r, v)| format!("{VECTORS}/{t}_{r}_{v}.dv")));
        let mut found: BTreeSet<String> = names(folder)?.into_iter().filter(|name| is_rowset(folder, name)).collect();
        let vectors = names(&folder.join(VECTORS))?.into_iter().filter(|name| is_vector(name));
        found.extend(vectors.map(|name| format!("{VECTORS}/{name}")));
        Ok(OnDisk {
            not_live: found.difference(&live).cloned().collect(),
            missing: live.difference(&found).cloned().collect(),
        })
    }
}

fn names(folder: &Path) -> Result<Vec<String>, Failed> {
    let listed = || -> io::Result<Vec<String>> {
        fs::read_dir(folder)?.map(|entry| Ok(entry?.file_name().to_string_lossy().into_owned())).collect()
    };
    match listed() {
        Err(e) if e.kind() == io::ErrorKind::NotFound => Ok(Vec::new()),
        other => other.map_err(|e| failed("list", folder, e)),
    }
}

fn is_rowset(folder: &Path, name: &str) -> bool {
    let ids = name.split_once('_').filter(|(t, r)| is_number::<u32>(t) && is_number::<u32>(r));
    ids.is_some() && folder.join(name).is_dir()
}

fn is_vector(name: &str) -> bool {
    let ids: Vec<&str> = name.strip_suffix(".dv").unwrap_or_default().split('_').collect();
    matches!(ids.as_slice(), [t, r, v] if is_number::<u32>(t) && is_number::<u32>(r) && is_number::<u64>(v))
}

// As the store writes it: `007` is nobody's id.
fn is_number<N: std::str::FromStr + ToString>(text: &str) -> bool {
    text.parse::<N>().is_ok_and(|n| n.to_string() == text)
}
