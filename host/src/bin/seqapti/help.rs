//! What `--help` says.

pub fn of(command: Option<&str>) -> &'static str {
    match command {
        Some("inspect") => INSPECT,
        Some("check") => CHECK,
        Some("import") => IMPORT,
        _ => ALL,
    }
}

const ALL: &str = "\
usage: seqapti COMMAND ...

  inspect PATH [--json | --html FILE]          what a manifest holds
  check PATH [--json]                          whether it would open, and if not, why
  import JSON-MANIFEST OUT [--drop-torn] [--json]
                                               the original's JSON manifest made into one of this store

PATH is a manifest or a store's folder. Nothing that is read is ever changed, and no lock is taken.
`seqapti COMMAND --help` says more of a command and has examples.

exit status: 0 done, and the manifest opens; 1 refused; 2 something could not be read or written, or bad usage
";

const INSPECT: &str = "\
usage: seqapti inspect PATH [--json | --html FILE]

Says what a manifest, or the one in a store's folder, holds: next ids, tables, rowsets (table/rowset), delete vectors, the
frames since the last rewrite with their lines, what an opening passes over or drops, and a torn tail with what it
would have done. Of a folder also the rowset folders and vector files that are not live or missing. The library judges
what stands; where it refuses, the frames that could be read are listed.

  --json        for programs, on one line
  --html FILE   writes a page with a picture of the same; it needs nothing else, and a page that is there is replaced

examples:
  seqapti inspect /srv/store
  seqapti inspect backup/manifest --json
  seqapti inspect /srv/store --html store.html

exit status: 0 it opens; 1 it is refused; 2 it could not be read, or the page not written, or bad usage
";

const CHECK: &str = "\
usage: seqapti check PATH [--json]

Says whether a store would open with this manifest, or with the one in this folder. If not: the refusal's number, the
line's place and text, why, and what can be done.

  --json        for programs, on one line

examples:
  seqapti check /srv/store
  seqapti check backup/manifest --json
  seqapti check /srv/store > /dev/null || echo 'does not open'

exit status: 0 it opens; 1 it is refused; 2 it could not be read, or bad usage
";

const IMPORT: &str = "\
usage: seqapti import JSON-MANIFEST OUT [--drop-torn] [--json]

Makes a manifest of this store from the JSON manifest of an original one. OUT is a folder that is there, for OUT/manifest
and OUT/shapes.json, or the name of a new file, for OUT and OUT.shapes.json. The shapes say each table's columns by
its shape's number. No file is ever written over, and nothing is written unless all of it is good.

What the original would show after a restart is imported. Left out, and named, are only a torn frame at the end and
vectors whose rowset is not there. Where a frame was torn and more was written behind it, the original counts
what landed of it with the next frame, and so does the import, with a warning.

  --drop-torn   leaves out the operations of such frames, as a manifest of this store would
  --json        for programs, on one line

examples:
  seqapti import /srv/store/manifest.json /srv/store
  seqapti import manifest.json new.manifest --json

exit status: 0 imported; 1 refused, and nothing written; 2 something could not be read or written, or bad usage
";
