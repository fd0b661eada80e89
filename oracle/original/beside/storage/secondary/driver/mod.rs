//! Reads a list of calls on standard input and carries it out with the original's own code. It stands inside
//! `secondary` to reach what is private there. An answer is the port's without lengths, and after a `;` come the names
//! of known differences that the call met. Lines that begin with `#!` are for this driver alone (README.md).
use std::io::Write;
use std::panic::{AssertUnwindSafe, catch_unwind};
use std::path::PathBuf;

use self::store::Store;
use crate::catalog::ColumnDesc;
use crate::storage::secondary::*;
use crate::types::DataType;

mod lines;
mod scratch;
mod settled;
mod short_writes;
mod store;
mod vectors;

/// The schema of all tables; 0 is the system's.
const SCHEMA: SchemaId = 1;

fn table_ref(table_id: u32) -> TableRefId {
    TableRefId { schema_id: SCHEMA, table_id }
}

fn shape(shape: u32) -> Vec<ColumnCatalog> {
    vec![ColumnCatalog::new(shape, ColumnDesc::new("shape", DataType::Shape, false))]
}

fn hex(bytes: &[u8]) -> String {
    bytes.iter().map(|byte| format!("{byte:02x}")).collect()
}

fn unhex(text: &str) -> Vec<u8> {
    let digits = text.trim_start_matches('-');
    let byte = |i| u8::from_str_radix(&digits[i..i + 2], 16).unwrap();
    (0..digits.len()).step_by(2).map(byte).collect()
}

fn or_dash(text: String) -> String {
    if text.is_empty() { "-".into() } else { text }
}

fn listed(name: &str, items: impl IntoIterator<Item = String>) -> String {
    let items: Vec<String> = items.into_iter().collect();
    let mut text = format!("{name},{}", items.len());
    for item in items {
        text += ",";
        text += &item;
    }
    text
}

/// `\n` and `\xHH` put into bytes.
fn unescaped(text: &str) -> String {
    let mut text = text.replace("\\n", "\n");
    while let Some(at) = text.find("\\x") {
        let byte = u8::from_str_radix(&text[at + 2..at + 4], 16).unwrap();
        text.replace_range(at..at + 4, &(byte as char).to_string());
    }
    text
}

/// The words of a line, and its numbers.
struct Words<'a>(Vec<&'a str>);

impl Words<'_> {
    fn number<T: std::str::FromStr>(&self, i: usize) -> T {
        self.0[i].parse().unwrap_or_else(|_| panic!("no number: {}", self.0[i]))
    }

    /// Row handles, each ROWSET:ROW.
    fn handles(&self, from: usize) -> Vec<SecondaryRowHandler> {
        let handle = |word: &&str| {
            let (rowset, row) = word.split_once(':').unwrap();
            SecondaryRowHandler(rowset.parse().unwrap(), row.parse().unwrap())
        };
        self.0[from..].iter().map(handle).collect()
    }

    fn numbers<T: std::str::FromStr>(&self, from: usize) -> Vec<T> {
        (from..self.0.len()).map(|i| self.number(i)).collect()
    }
}

struct Driver {
    store: Store,
    /// The next `mask` is that of a shown rowset: table, rowset, epoch.
    scan: Option<(u32, u32, u64)>,
}

impl Driver {
    async fn answer(&mut self, line: &str) -> StorageResult<String> {
        let words = Words(line.split(' ').filter(|word| !word.is_empty()).collect());
        match words.0[0] {
            "commit" | "create" | "drop" | "compact" | "reopen" | "fresh" => self.changed(&words).await,
            "draw" | "pin" | "unpin" | "vacuum" | "lock" | "unlock" => self.managed(&words).await,
            "show" | "state" | "file" => Ok(self.shown(&words)),
            "select" | "group" | "encode" | "decode" | "mask" => self.beside(&words).await,
            "cut" | "stale" | "write" | "room" | "report" => {
                self.host(line, &words);
                Ok(String::new())
            }
            "#!" => self.own(&words).await,
            _ => panic!("no call: {line}"),
        }
    }

    async fn changed(&mut self, words: &Words<'_>) -> StorageResult<String> {
        let store = &mut self.store;
        Ok(match words.0[0] {
            "commit" => {
                let lines = words.0[1..].iter().map(|word| word.to_string()).collect();
                format!("committed,{}", store.commit(lines).await?)
            }
            "create" => {
                let (table, epoch) = store.create(words.number(1), words.0[2]).await?;
                format!("created,{table},{epoch}")
            }
            "drop" => format!("dropped,{}", store.drop_table(words.number(1)).await?),
            "compact" => {
                let new = (words.0[2] != "-").then(|| words.number(2));
                let taken: Vec<u32> = words.numbers(3);
                format!("compacted,{}", store.compact(words.number(1), new, &taken).await?)
            }
            "reopen" => {
                store.reopen().await?;
                "reopened".into()
            }
            _ => {
                store.anew().await?;
                "fresh".into()
            }
        })
    }

    async fn managed(&mut self, words: &Words<'_>) -> StorageResult<String> {
        let store = &mut self.store;
        let version = store.engine.version.clone();
        Ok(match words.0[0] {
            "draw" if words.0[1] == "rowset" => {
                format!("drawn,{}", store.table(&store.engine, 0).generate_rowset_id())
            }
            "draw" => format!("drawn,{}", store.table(&store.engine, 0).generate_dv_id()),
            "pin" => {
                let pin = version.pin();
                let epoch = pin.epoch;
                store.pins.entry(epoch).or_default().push(pin);
                format!("pinned,{epoch}")
            }
            "unpin" => self.unpinned(words.number(1)),
            "vacuum" => {
                let found = version.find_vacuum().await?;
                for (table, rowset) in &found {
                    let _ = std::fs::remove_dir(store.dir.join(format!("{table}_{rowset}")));
                }
                listed("vacuumed", found.iter().map(|(t, r)| format!("{t}:{r}")))
            }
            "lock" => store.lock(words.number(1)).into(),
            _ => store.unlock(words.number(1)).into(),
        })
    }

    /// Dropping a version; due is whether a notice came. What would be ready is counted from what waits.
    fn unpinned(&mut self, epoch: u64) -> String {
        let version = self.store.engine.version.clone();
        version.notices();
        self.store.unpin(epoch);
        let due = version.notices();
        let bound = version.pins().keys().next().copied().unwrap_or(version.epoch());
        let ready = version.waiting().iter().filter(|deletion| deletion.0 <= bound).count();
        format!("unpinned,{due},{}", ready * due)
    }

    fn shown(&self, words: &Words<'_>) -> String {
        let store = &self.store;
        match (words.0[0], words.0.get(1)) {
            ("state", _) => {
                let next = store.next_ids();
                let epoch = store.engine.version.epoch();
                format!("state,{epoch},{},{},{}", next.table, next.rowset, next.vector)
            }
            ("file", _) => format!("file,{}", store.appended()),
            (_, Some(&"tables")) => listed("tables", store.tables()),
            (_, Some(&"pairs")) => {
                let pairs = store.at(words.number(2)).pairs();
                listed("pairs", pairs.iter().map(|(t, r)| format!("{t}:{r}")))
            }
            _ => {
                let vectors = store.at(words.number(2)).vectors();
                listed("vectors", vectors.iter().map(|(t, r, v)| format!("{t}:{r}:{v}")))
            }
        }
    }

    /// All that the definitions of the original speak of, section by section.
    fn held(&self) -> String {
        let store = &self.store;
        let version = &store.engine.version;
        let (rowsets, dvs) = version.pools();
        let (now, next, opened) = (store.now(), store.next_ids(), store.opened_with);
        let sections = [
            format!("epoch,{}", version.epoch()),
            listed("tables", store.tables()),
            listed("pairs", now.pairs().iter().map(|(t, r)| format!("{t}:{r}"))),
            listed("vectors", now.vectors().iter().map(|(t, r, v)| format!("{t}:{r}:{v}"))),
            listed("pins", version.pins().iter().map(|(e, n)| format!("{e}:{n}"))),
            listed("waiting", version.waiting().iter().map(|(e, t, r)| format!("{e}:{t}:{r}"))),
            listed("rowsets", rowsets.iter().map(|(t, r)| format!("{t}:{r}"))),
            listed("dvs", dvs.iter().map(|(t, v)| format!("{t}:{v}"))),
            format!("next,{},{},{}", next.table, next.rowset, next.vector),
            format!("opened,{},{}", opened.rowset, opened.vector),
        ];
        sections.join(" ")
    }

    async fn beside(&mut self, words: &Words<'_>) -> StorageResult<String> {
        Ok(match words.0[0] {
            "select" => {
                let table = words.number(1);
                let rowsets = self.store.rowsets(table);
                let sizes: Vec<_> = rowsets.into_iter().zip(words.numbers(3)).collect();
                let taken = scratch::selected(table, words.number(2), &sizes).await?;
                if !scratch::may_be_selected(&sizes, words.number(2), &taken) {
                    self.store.note("selection");
                }
                if let [rowset] = scratch::taken_upwards(&sizes, words.number(2))[..] {
                    self.store.note_lone(table, rowset);
                }
                listed("selected", taken.iter().map(u32::to_string))
            }
            "group" => listed("grouped", scratch::grouped(&mut self.store, &words.handles(1)).await?),
            "encode" => {
                format!("encoded,{}", or_dash(hex(&vectors::encoded(&words.numbers(1)).await?)))
            }
            "decode" => {
                let rows = vectors::decoded(&self.store, &unhex(words.0[1])).await?;
                listed("decoded", rows.iter().map(u32::to_string))
            }
            _ => {
                let (offset, bits) = (words.number(1), words.0[2]);
                match self.scan.take() {
                    Some(scan) => format!("masked,{}", vectors::scanned(&self.store, scan, offset, bits)),
                    None => format!("masked,{}", vectors::masked(offset, bits, &words.numbers(3))),
                }
            }
        })
    }

    fn host(&mut self, line: &str, words: &Words<'_>) {
        match words.0[0] {
            "cut" => self.store.cut(words.number(1)),
            "stale" => self.store.stale(),
            "write" => {
                let text = line.strip_prefix("write").unwrap();
                self.store.write(&unescaped(text.strip_prefix(' ').unwrap_or(text)));
            }
            _ => {}
        }
    }

    /// Lines for this driver alone.
    async fn own(&mut self, words: &Words<'_>) -> StorageResult<String> {
        let store = &mut self.store;
        let version = store.engine.version.clone();
        Ok(match words.0[1] {
            "rows" => {
                let bytes = vectors::encoded(&words.numbers(3)).await?;
                store.contents.insert(words.number(2), bytes);
                String::new()
            }
            "vector" => {
                let rows = vectors::opened(store, &unhex(words.0[2])).await?;
                listed("vector", rows.iter().map(u32::to_string))
            }
            "scan" => {
                self.scan = Some((words.number(2), words.number(3), words.number(4)));
                String::new()
            }
            "literal" => {
                store.settle = false;
                String::new()
            }
            "own" => {
                store.own_reading = true;
                String::new()
            }
            "transaction" => {
                let table = store.table(&store.engine, words.number(2));
                scratch::deleted(&table, &words.handles(3)).await?;
                format!("epoch,{}", version.epoch())
            }
            "disk" => {
                let length = store.bytes().len() as u64;
                let more: Option<i64> = words.0[2].parse().ok();
                short_writes::limit(more.map(|more| length.saturating_add_signed(more)));
                String::new()
            }
            "json" => String::from_utf8_lossy(&store.bytes()).into(),
            "lines" => store.lines(),
            "pins" => listed("pins", version.pins().iter().map(|(e, n)| format!("{e}:{n}"))),
            "waiting" => listed("waiting", version.waiting().iter().map(|(e, t, r)| format!("{e}:{t}:{r}"))),
            "folders" => listed("folders", store.folders().iter().map(|(t, r)| format!("{t}:{r}"))),
            "held" => self.held(),
            "unpin" => {
                store.unpin_all();
                String::new()
            }
            "open" => {
                store.reopen().await?;
                format!("epoch,{}", store.engine.version.epoch())
            }
            "unlink" => {
                let table = store.table(&store.engine, words.number(2));
                std::fs::remove_file(table.get_dv_path(words.number(3), words.number(4)))?;
                String::new()
            }
            _ => panic!("no line of the driver: {}", words.0[1]),
        })
    }
}

/// What a call came to: its answer, an error, or a panic.
fn outcome(runtime: &tokio::runtime::Runtime, driver: &mut Driver, line: &str) -> String {
    driver.store.notes.clear();
    match catch_unwind(AssertUnwindSafe(|| runtime.block_on(driver.answer(line)))) {
        Ok(Ok(answer)) if driver.store.notes.is_empty() => answer,
        Ok(Ok(answer)) => format!("{answer};{}", driver.store.notes.join(";")),
        Ok(Err(error)) => format!("error,{error:?}"),
        Err(payload) => {
            let text = payload.downcast_ref::<String>().cloned();
            let text = text.or(payload.downcast_ref::<&str>().map(|s| s.to_string()));
            format!("panic,{}", text.unwrap_or_default().replace('\n', " "))
        }
    }
}

/// One line for each answer; with `--each` one for each line, empty where there is no answer.
fn told(each: bool, line: &str, answer: &str) {
    if each || !answer.is_empty() && !line.starts_with('#') {
        println!("{answer}");
        std::io::stdout().flush().unwrap();
    }
}

/// The driver's temporary folder is ORACLE_DIR.
pub fn drive() {
    short_writes::as_errors();
    let dir = PathBuf::from(std::env::var_os("ORACLE_DIR").expect("ORACLE_DIR: a temporary folder"));
    let dir = dir.join(format!("store-{}", std::process::id()));
    let runtime = tokio::runtime::Builder::new_current_thread().enable_all().build().unwrap();
    let store = runtime.block_on(Store::fresh(dir.clone())).unwrap();
    let mut driver = Driver { store, scan: None };
    let each = std::env::args().any(|argument| argument == "--each");
    std::panic::set_hook(Box::new(|_| {}));
    for line in std::io::stdin().lines().map(Result::unwrap) {
        let passed_over = line.is_empty() || line.starts_with('#') && !line.starts_with("#! ");
        let answer = if passed_over { String::new() } else { outcome(&runtime, &mut driver, &line) };
        told(each, &line, &answer);
    }
    std::mem::forget(std::mem::take(&mut driver.store.pins)); // one that outlives its manager panics
    let _ = std::fs::remove_dir_all(dir);
}
