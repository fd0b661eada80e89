//! `seqapti inspect --html`: one page that needs nothing beside it.
use crate::check::Judged;
use crate::explain::Explained;
use crate::frames::{Frame, Placed, Tail};
use crate::inspect::{ignored_words, lines, orphans, plural};
use crate::line::{readable, Op};
use crate::on_disk::OnDisk;
use crate::picture::{frames_a_column, picture};
use seqapti::{Reading, RowsetId, Table};

/// Operations of a frame that are shown at once; the others are folded.
const MOST_SHOWN: usize = 12;

pub fn page(judged: &Judged, on_disk: &OnDisk) -> String {
    let path = escaped(&judged.source.path.display().to_string());
    let mut body = format!("<header><h1>{path}</h1>{}</header>\n", badge(judged));
    body += &tiles(judged);
    if let Err(explained) = &judged.verdict {
        body += &refused(explained);
    }
    if let Some(warning) = judged.warning() {
        body +=
            &format!("<section class=\"note bad\"><h2>Is it a manifest?</h2><p>{}</p></section>\n", escaped(&warning));
    }
    if let Some(tail) = &judged.frames.tail {
        body += &torn(tail);
    }
    body += &drawn(judged);
    if let Ok(reading) = &judged.verdict {
        body += &standing(reading);
    }
    body += &passed_over(judged);
    body += &files(on_disk);
    body += &frames(judged);
    format!(
        "<!DOCTYPE html>\n<html lang=\"en\">\n<head>\n<meta charset=\"utf-8\">\n\
         <meta name=\"viewport\" content=\"width=device-width, initial-scale=1\">\n\
         <meta http-equiv=\"Content-Security-Policy\" content=\"default-src 'none'; style-src 'unsafe-inline'\">\n\
         <title>{path}</title>\n<style>\n{STYLE}</style>\n</head>\n<body>\n{body}</body>\n</html>\n"
    )
}

const STYLE: &str = include_str!("page.css");

/// A text with nothing in it that a page would take for its own.
pub fn escaped(text: &str) -> String {
    let mut out = String::with_capacity(text.len());
    for c in text.chars() {
        match c {
            '&' => out += "&amp;",
            '<' => out += "&lt;",
            '>' => out += "&gt;",
            '"' => out += "&quot;",
            '\'' => out += "&#39;",
            c => out.push(c),
        }
    }
    out
}

fn badge(judged: &Judged) -> String {
    match &judged.verdict {
        Ok(_) if judged.frames.tail.is_some() => "<span class=\"badge warn\">opens, with a torn tail</span>".into(),
        Ok(_) => "<span class=\"badge good\">opens</span>".into(),
        Err(e) if e.place > 0 => {
            format!("<span class=\"badge bad\">refused by {} at line {}</span>", e.refusal.number(), e.place)
        }
        Err(e) => format!("<span class=\"badge bad\">refused by {}</span>", e.refusal.number()),
    }
}

fn tiles(judged: &Judged) -> String {
    let mut out = String::from("<section class=\"tiles\">\n");
    out += &meter("manifest", judged.source.length, 65_536, "bytes");
    if let Ok(reading) = &judged.verdict {
        let shown = &reading.snapshot;
        out += &meter("tables", shown.tables().len() as u64, 16, "");
        out += &meter("rowsets", shown.rowsets().count() as u64, 256, "");
        out += &meter("vectors", shown.dvs().count() as u64, 256, "");
        let next = reading.next;
        out += &tile("next ids", &format!("{} · {} · {}", next.table, next.rowset, next.dv), "table · rowset · vector");
    }
    let since = judged.frames.parted().1.len();
    let under = if judged.frames.parted().0.is_some() { "since the last rewrite" } else { "and no rewrite" };
    out += &tile("frames", &grouped(since as u64), under);
    out + "</section>\n"
}

fn tile(name: &str, value: &str, under: &str) -> String {
    format!("<div class=\"tile\"><h2>{name}</h2><p class=\"value\">{value}</p><p class=\"dim\">{under}</p></div>\n")
}

fn meter(name: &str, n: u64, most: u64, unit: &str) -> String {
    let part = (n as f64 / most as f64 * 100.0).min(100.0);
    let level = if part > 90.0 { " high" } else { "" };
    format!(
        "<div class=\"tile\"><h2>{name}</h2><p class=\"value\">{}</p><div class=\"meter{level}\"><div style=\"width:{part:.1}%\"></div></div>\
         <p class=\"dim\">of {} {unit}</p></div>\n",
        grouped(n),
        grouped(most)
    )
}

// 65536 as 65,536.
fn grouped(n: u64) -> String {
    let digits = n.to_string();
    let mut out = String::new();
    for (i, digit) in digits.chars().enumerate() {
        if i > 0 && (digits.len() - i).is_multiple_of(3) {
            out.push(',');
        }
        out.push(digit);
    }
    out
}

fn refused(explained: &Explained) -> String {
    let line = match &explained.line {
        Some(line) => format!("<p>line {}: <code>{}</code></p>", explained.place, escaped(line)),
        None => String::new(),
    };
    let (why, advice) = (escaped(&explained.why), escaped(&explained.advice));
    format!("<section class=\"note bad\"><h2>Why it is refused</h2>{line}<p>{why}</p><p>{advice}</p></section>\n")
}

fn torn(tail: &Tail) -> String {
    let mut out = format!(
        "<section class=\"note warn\"><h2>Torn tail</h2><p>{} from byte {} on: {}. An opening leaves it out.</p>",
        plural(tail.bytes, "byte"),
        tail.from,
        escaped(&tail.words())
    );
    if !tail.ops.is_empty() {
        out += &format!("<p>It would have done: {}</p>", chips(&tail.ops));
    }
    if tail.in_a_line() {
        out += &format!("<p>It ends in a line: <code>{}</code></p>", escaped(&readable(&tail.rest)));
    }
    out + "</section>\n"
}

fn drawn(judged: &Judged) -> String {
    let svg = picture(&judged.frames);
    if svg.is_empty() {
        return "<section><h2>Frames</h2><p>There is no frame in it.</p></section>\n".into();
    }
    let shared = match frames_a_column(&judged.frames) {
        1 => String::new(),
        n => format!("; a column is {n} frames"),
    };
    let torn = if judged.frames.tail.is_some() { "<span><i class=\"key torn\"></i>torn tail</span>" } else { "" };
    format!(
        "<section><h2>Frames, and what stands from which to which</h2>\n<p class=\"legend\"><span><i class=\"key live\"></i>rowset that stands now</span>\
         <span><i class=\"key past\"></i>rowset deleted since</span><span><i class=\"key vector\"></i>delete vector</span>{torn}\
         <span class=\"dim\">numbers in boxes are rowset ids; point at a box for more{shared}</span></p>\n<div class=\"scroll\">{svg}</div></section>\n"
    )
}

fn standing(reading: &Reading) -> String {
    let tables = reading.snapshot.tables();
    if tables.is_empty() {
        return "<section><h2>What stands now</h2><p>No table.</p></section>\n".into();
    }
    let rows: String = tables.iter().map(|table| table_row(reading, table)).collect();
    format!(
        "<section><h2>What stands now</h2><div class=\"scroll\"><table><thead><tr><th>table</th><th>name</th><th>shape</th>\
         <th>rowsets</th><th>delete vectors, as rowset: vectors</th></tr></thead><tbody>{rows}</tbody></table></div></section>\n"
    )
}

fn table_row(reading: &Reading, table: &Table) -> String {
    let id = table.table_id;
    let rowsets = reading.snapshot.get_rowsets_of(id).unwrap_or_default();
    let mut over = Vec::new();
    for rowset in rowsets {
        if let Some(vectors) = reading.snapshot.get_dvs_of(id, *rowset) {
            let ids: Vec<u64> = vectors.iter().map(|v| v.0).collect();
            over.push(format!("{rowset}: {}", runs(&ids)));
        }
    }
    let ids: Vec<u64> = rowsets.iter().map(|RowsetId(r)| u64::from(*r)).collect();
    format!(
        "<tr><td class=\"n\">{id}</td><td><b>{}</b></td><td class=\"n\">{}</td><td>{}<span class=\"dim\">{}</span></td><td>{}</td></tr>\n",
        escaped(&table.table_name),
        table.shape,
        rowsets.len(),
        if ids.is_empty() { String::new() } else { format!(": {}", runs(&ids)) },
        over.join("; ")
    )
}

// Ascending numbers, as 1 to 4, 7.
fn runs(ids: &[u64]) -> String {
    let mut runs: Vec<(u64, u64)> = Vec::new();
    for id in ids {
        match runs.last_mut() {
            Some((_, last)) if last.checked_add(1) == Some(*id) => *last = *id,
            _ => runs.push((*id, *id)),
        }
    }
    let words: Vec<String> =
        runs.iter().map(|(a, b)| if a == b { a.to_string() } else { format!("{a}–{b}") }).collect();
    words.join(", ")
}

fn passed_over(judged: &Judged) -> String {
    let mut items: Vec<String> =
        judged.frames.ignored.iter().map(|i| format!("passed over: {}", ignored_words(i))).collect();
    items.extend(
        orphans(judged).iter().map(|(t, r, v)| format!("dropped: vector {v} over rowset {t}/{r}, which is not there")),
    );
    if items.is_empty() {
        return String::new();
    }
    let list: String = items.iter().map(|item| format!("<li>{}</li>", escaped(item))).collect();
    format!("<section class=\"note warn\"><h2>What an opening does not take</h2><ul>{list}</ul></section>\n")
}

fn files(on_disk: &OnDisk) -> String {
    let kinds = [
        (&on_disk.not_live, "not live, named by nothing committed"),
        (&on_disk.missing, "missing, named by the manifest"),
    ];
    let items: String = kinds
        .iter()
        .filter(|(names, _)| !names.is_empty())
        .map(|(names, kind)| format!("<li>{kind}: <code>{}</code></li>", escaped(&names.join("  "))))
        .collect();
    match items.is_empty() {
        true => String::new(),
        false => format!("<section class=\"note warn\"><h2>Files in the folder</h2><ul>{items}</ul></section>\n"),
    }
}

fn frames(judged: &Judged) -> String {
    let (rewrite, since) = judged.frames.parted();
    let mut rows = String::new();
    if let Some(frame) = rewrite {
        rows += &frame_row("rewrite", frame);
    }
    for (i, frame) in since.iter().enumerate() {
        rows += &frame_row(&(i + 1).to_string(), frame);
    }
    if rows.is_empty() {
        return String::new();
    }
    format!(
        "<section><h2>Frame by frame</h2><div class=\"scroll\"><table class=\"frames\"><thead><tr><th>frame</th><th>lines</th><th>what it does</th>\
         <th>operations</th></tr></thead><tbody>{rows}</tbody></table></div></section>\n"
    )
}

fn frame_row(name: &str, frame: &Frame) -> String {
    let shown = match frame.ops.len() > MOST_SHOWN {
        true => {
            let (first, rest) = frame.ops.split_at(MOST_SHOWN - 1);
            format!("{}<details><summary>{} more</summary>{}</details>", chips(first), rest.len(), chips(rest))
        }
        false => chips(&frame.ops),
    };
    format!(
        "<tr><td class=\"n\">{name}</td><td class=\"n dim\">{}</td><td>{}</td><td>{shown}</td></tr>\n",
        lines(frame).replace(" to ", "–"),
        frame.tally().words()
    )
}

fn chips(ops: &[Placed]) -> String {
    ops.iter().map(|placed| chip(&placed.op)).collect()
}

fn chip(op: &Op) -> String {
    let class = match op {
        Op::Create { .. } | Op::Add(_) | Op::AddVector(_) => "add",
        Op::Drop { .. } | Op::Delete(_) | Op::DeleteVector(_) => "del",
        Op::Next(_) => "next",
    };
    format!("<code class=\"{class}\" title=\"{}\">{}</code> ", escaped(&op.words()), escaped(&op.to_string()))
}
