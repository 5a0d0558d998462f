//! The calls that ship beside two programs in Rust for the same work: the same bytes, one run, and
//! every answer and every lent byte compared before anything is timed.
mod agree;
mod book;
mod crc;
mod desk;
mod entries;
mod frame;
mod growth;
#[allow(dead_code)]
#[path = "../wrapper/homralgyu.rs"]
mod homralgyu;
mod made;
mod payload;
mod prepare;
mod race;
mod rows_desk;
mod rows_entries;
mod rows_payload;
mod rows_stream;
mod sides;
mod stream;
mod walk;

use race::Tables;

type Group = (&'static str, fn(&Tables));

const GROUPS: [Group; 7] = [
    ("stream", rows_stream::stream),
    ("frame", rows_stream::frames),
    ("payload", rows_payload::payloads),
    ("desk", rows_desk::desk),
    ("prepare", rows_stream::prepare_rows),
    ("entries", rows_entries::entries),
    ("growth", growth::growth),
];

fn main() {
    let arguments: Vec<String> = std::env::args().skip(1).collect();
    let (flags, names): (Vec<&String>, Vec<&String>) =
        arguments.iter().partition(|argument| argument.starts_with("--"));
    let has = |name: &str| flags.iter().any(|flag| *flag == name);
    let tables = Tables { markdown: has("--markdown"), quick: has("--agree") };
    agree::agree();
    for (name, rows) in GROUPS {
        if names.is_empty() || names.contains(&&name.to_string()) {
            rows(&tables);
        }
    }
}
