//! Makes the reference out of the published Rust. The files that compile as they stand are named to
//! the compiler where they are; the span of `decode_mc_frame_with` and what it uses are cut out of
//! mc.rs and put into template/mc.rs. README.md lists what differs from the published text.

mod cut;

use cut::{Source, fail};
use std::path::{Path, PathBuf};
use std::{env, fs};

/// The folder of the published files where `MC_SOURCE` names none, from the package's folder.
const DEFAULT_SOURCE: &str = "../../shared/docs/src/src";

/// The folder of the static library where `KOFTABASIN_STATICLIB` names none.
const DEFAULT_STATICLIB: &str = "../target/staticlib";

/// Published files, and what each is for.
const MC: (&str, &str) = ("mc.rs", "the span of decode_mc_frame_with");
const AUDIO_DATA: (&str, &str) = ("audio_data.rs", "the type Scfsi");
const WHOLE: [(&str, &str); 4] = [
    ("bitalloc.rs", "the quantiser classes and subband limits"),
    ("header.rs", "the types FrameHeader, Mode and HeaderError"),
    ("requant.rs", "requantize_code and degroup"),
    ("tables.rs", "the scalefactors"),
];

fn main() {
    let folder = folder_of("MC_SOURCE", DEFAULT_SOURCE);
    let out = PathBuf::from(env::var_os("OUT_DIR").expect("cargo sets OUT_DIR"));
    let mut modules = String::new();
    for file in WHOLE {
        published(&folder, file);
        let path = folder.canonicalize().unwrap_or_default().join(file.0);
        modules += &module(file.0, &path);
    }
    let made = [
        (AUDIO_DATA.0, scfsi(&published(&folder, AUDIO_DATA))),
        (MC.0, reference(&published(&folder, MC))),
    ];
    for (name, text) in made {
        write(&out.join(name), &text);
        modules += &module(name, &out.join(name));
    }
    write(&out.join("published.rs"), &modules);
    for file in ["build", "template"] {
        println!("cargo::rerun-if-changed={file}");
    }
    if env::var_os("CARGO_FEATURE_LEAVES").is_some() {
        link("leaves", "leaves");
        link("leaves", "class_leaves");
    }
    if env::var_os("CARGO_FEATURE_PARTS").is_some() {
        link("heads", "parts");
        link("payloads", "parts");
    }
}

/// The folder that the variable names, else the default; both from the package's folder.
fn folder_of(variable: &str, default: &str) -> PathBuf {
    println!("cargo::rerun-if-env-changed={variable}");
    PathBuf::from(env::var_os(variable).unwrap_or_else(|| default.into()))
}

/// The text of a published file; where it is missing, the build says so and stops.
fn published(folder: &Path, (name, purpose): (&str, &str)) -> Source {
    let path = folder.join(name);
    println!("cargo::rerun-if-changed={}", path.display());
    let Ok(text) = fs::read_to_string(&path) else {
        fail(&format!(
            "the published file {} is missing.\n\
             It is needed for {purpose}; this repository has no copy of it.\n\
             Name the folder that holds it, with its neighbours, in the variable MC_SOURCE\n\
             (without that, the folder is {DEFAULT_SOURCE}, from the folder of oracle/Cargo.toml).",
            path.display()
        ))
    };
    Source {
        name: name.to_string(),
        text,
    }
}

/// The declaration of the crate's module that stands in `path`.
fn module(file: &str, path: &Path) -> String {
    let name = file.trim_end_matches(".rs");
    format!("#[allow(unused, clippy::all)]\n#[path = {path:?}]\npub mod {name};\n")
}

fn write(path: &Path, text: &str) {
    if let Err(error) = fs::write(path, text) {
        fail(&format!("{}: {error}", path.display()));
    }
}

/// Scfsi alone: the rest of audio_data.rs needs a writer of bits.
fn scfsi(audio_data: &Source) -> String {
    let from = "/// §2.4.2.3 scfsi schedule for a single (ch, sb).";
    let to = "/// Maximum number of channels in MPEG-1 audio.";
    audio_data.lines(from, to).text
}

/// The template with the cuts of mc.rs in their places.
fn reference(mc: &Source) -> String {
    let path = "template/mc.rs";
    let Ok(text) = fs::read_to_string(path) else {
        fail(&format!("{path} is missing"))
    };
    let name = path.to_string();
    let mut whole = Source { name, text };
    for (mark, part) in items(mc).into_iter().chain(span(mc)) {
        whole = whole.filled(mark, &part);
    }
    if whole.text.contains("/*@") {
        fail(&format!("{path}: a mark was not filled"));
    }
    whole.text
}

/// The items of mc.rs beside the span.
fn items(mc: &Source) -> Vec<(&'static str, Source)> {
    let cuts = [
        (
            "types",
            "/// Subband samples per subband per Layer II frame",
            "// Base-frame subband extraction",
        ),
        (
            "state",
            "/// Cross-frame decode state:",
            "// The per-frame decoder",
        ),
        (
            "composite",
            "/// Internal parse of `mc_composite_status_info()`",
            "/// Decode one Layer II multichannel frame.",
        ),
        (
            "formulas",
            "/// §2.5.3.2.4 LFE requantisation:",
            "// Stream-level driver",
        ),
    ];
    cuts.map(|(mark, from, to)| (mark, mc.lines(from, to)))
        .into()
}

/// The lines that begin the parts of the span, in order; the last one ends it. The parts `assembly`
/// and `check` are dropped: extension bytes are joined by the caller, the check word is not compared.
const PARTS: [(&str, &str); 10] = [
    ("header", "let ext_present = read_u32(&mut hdr_reader,"),
    ("assembly", "// ---- assemble the extension bit field ---"),
    ("status", "let limit = mc_bits as u64;"),
    ("places", "// `dyn_cross[mch][sb]` — true when"),
    ("allocation", "// ---- mc_audio_data (§2.5.1.17) ---"),
    ("scfsi", "// scfsi[mch][sb]"),
    ("check", "// ---- mc_error_check (§2.5.2.14) ---"),
    ("record", "let _ = audio_start;"),
    ("finish", "// ---- dynamic-crosstalk sample copy ("),
    ("", "// ---- synthesis (§2.5.3.2.6) ---"),
];

/// The parts of the span, and the expressions of it that are compared as leaves.
fn span(mc: &Source) -> Vec<(&'static str, Source)> {
    let body = mc.lines(
        "pub fn decode_mc_frame_with(",
        "/// §2.5.3.2.4 LFE requantisation:",
    );
    let mut parts = Vec::new();
    for pair in PARTS.windows(2) {
        let part = body.lines(pair[0].1, pair[1].1);
        match pair[0].0 {
            "assembly" | "check" => {}
            "allocation" => parts.push(("allocation", lent_allocation(part))),
            "record" => {
                let leaf = |before| part.inside(before, ";");
                parts.push(("coefficient", leaf("pred_coef[sbgr][px][pci] = ")));
                parts.push(("lfe_bits", leaf("let lfe_bits = ")));
                parts.push(("lfe_sample", leaf("lfe_samples[gr] = ")));
                parts.push(("record", part));
            }
            mark => parts.push((mark, part)),
        }
    }
    parts
}

/// Allocations are lent, where the published text reads them.
fn lent_allocation(part: Source) -> Source {
    part.replaced(
        "read_u32(&mut r, 4, limit)? as usize",
        "input.lfe_allocation as usize",
    )
    .replaced(
        "let nbal = mc_table.nbal(sb);
                let idx = read_u32(&mut r, nbal, limit)?;
                alloc[mch][sb] = mc_table.nb_steps(sb, idx).ok_or(McError::UnexpectedEnd)?;",
        "alloc[mch][sb] = input.nb_steps[mch][sb];",
    )
}

/// Links a proved crate into the one program that compares it.
fn link(program: &str, name: &str) {
    let folder = folder_of("KOFTABASIN_STATICLIB", DEFAULT_STATICLIB);
    let library = folder.join(format!("lib{name}.a"));
    println!("cargo::rerun-if-changed={}", library.display());
    let Ok(path) = library.canonicalize() else {
        fail(&format!(
            "the static library {} is missing.\n\
             `tools/staticlib {name}` at the repository's root makes it; name another folder in the\n\
             variable KOFTABASIN_STATICLIB (from the folder of oracle/Cargo.toml).",
            library.display()
        ))
    };
    println!("cargo::rustc-link-arg-bin={program}={}", path.display());
}
