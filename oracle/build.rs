//! Takes the numeric functions out of the published source at build time, by name, and writes them to OUT_DIR, where
//! src/source.rs includes them. Nothing of that source stands in this repository. The text is unchanged but for the
//! stand-ins of document 01 (`EDITS`) and serde's attributes, which are taken out (`plain`).
use std::env;
use std::fs;
use std::path::{Path, PathBuf};

/// What is taken from each file: (file, its name in OUT_DIR, items as 'kind name', in the order written).
const FILES: [(&str, &str, &[&str]); 5] = [
    (
        "generators/mod.rs",
        "marks.rs",
        &["const DIRX", "const DIRY", "fn get_min_max", "fn normalize", "struct Progress", "impl Progress"],
    ),
    ("generators/resample.rs", "resample.rs", &["fn work_size", "fn downsample", "fn add_upsampled", "fn bilinear"]),
    ("generators/flow.rs", "flow.rs", &["struct FlowNet", "impl FlowNet", "fn receiver_distance", "fn height_key"]),
    (
        "generators/fluvial_erosion.rs",
        "fluvial_erosion.rs",
        &[
            "const REFERENCE_RES",
            "const AREA_EXPONENT",
            "const STRENGTH_MAX",
            "const HILLSLOPE_AREA",
            "const TALUS_STRENGTH",
            "struct FluvialErosionConf",
            "struct FluvialParams",
            "impl FluvialParams",
            "fn fluvial_plan",
            "fn gen_fluvial_erosion",
            "fn incise_iterations",
            "fn incision_coef",
            "fn incise",
        ],
    ),
    (
        "generators/thermal_erosion.rs",
        "thermal_erosion.rs",
        &[
            "const REFERENCE_RES",
            "const TALUS_MAX",
            "struct ThermalErosionConf",
            "struct ThermalParams",
            "impl ThermalParams",
            "fn thermal_plan",
            "fn gen_thermal_erosion",
            "fn slide_passes",
            "fn slide_pass",
        ],
    ),
];

/// Document 01, 'Stand-ins': (file, item, text, text in its place, how often). docs/DIFFERENCES.md has the same table.
/// `max_of`, `powf_of` and `powi_of` are in src/standins.rs. `round`, `ceil`, `fract`, `as usize` stay Rust's.
const EDITS: [(&str, &str, &str, &str, usize); 7] = [
    ("generators/resample.rs", "fn add_upsampled", ".max(0.0)", ".max_of(0.0)", 2),
    ("generators/flow.rs", "impl FlowNet", "h[ni].max(self.filled[ci])", "h[ni].max_of(self.filled[ci])", 1),
    (
        "generators/fluvial_erosion.rs",
        "fn incision_coef",
        "area.max(HILLSLOPE_AREA * n_cells)",
        "area.max_of(HILLSLOPE_AREA * n_cells)",
        1,
    ),
    ("generators/fluvial_erosion.rs", "fn incision_coef", ".powf(AREA_EXPONENT)", ".powf_of(AREA_EXPONENT)", 1),
    (
        "generators/fluvial_erosion.rs",
        "fn incise",
        "hmap[r].max(params.water_level)",
        "hmap[r].max_of(params.water_level)",
        1,
    ),
    ("generators/thermal_erosion.rs", "impl ThermalParams", ".powi(2)", ".powi_of(2)", 1),
    ("generators/thermal_erosion.rs", "fn slide_pass", "d_max.max(e)", "d_max.max_of(e)", 1),
];

/// Where `.max(` stays, because it is that of usize: (file, item, how often). Any other `.max(` fails the build.
const INTEGER_MAX: [(&str, &str, usize); 5] = [
    ("generators/resample.rs", "fn work_size", 3),
    ("generators/fluvial_erosion.rs", "impl FluvialParams", 1),
    ("generators/fluvial_erosion.rs", "fn fluvial_plan", 1),
    ("generators/thermal_erosion.rs", "impl ThermalParams", 1),
    ("generators/thermal_erosion.rs", "fn thermal_plan", 1),
];

fn main() {
    let dir = source_dir();
    let out = PathBuf::from(env::var("OUT_DIR").expect("OUT_DIR"));
    println!("cargo:rerun-if-env-changed=WGEN_SRC");
    println!("cargo:rerun-if-changed=build.rs");
    for (file, name, items) in FILES {
        let path = dir.join(file);
        println!("cargo:rerun-if-changed={}", path.display());
        let text = fs::read_to_string(&path).unwrap_or_else(|e| panic!("cannot read {}: {e}", path.display()));
        let mut written = String::new();
        for item in items {
            written.push_str(&edited(file, item, &plain(taken(&text, file, item))));
            written.push_str("\n\n");
        }
        fs::write(out.join(name), written).expect("OUT_DIR can be written");
    }
    if env::var_os("CARGO_FEATURE_BENCH").is_some() {
        link_harness();
    }
}

/// The archives that `tools/staticlib.sh` writes of the crates that export calls, for the programs that link them.
const ARCHIVES: [(&str, &[&str]); 3] = [
    ("bench", &["harness", "harness_runs", "layout_calls"]),
    ("peer", &["harness"]),
    ("compare", &["harness", "harness_calls", "harness_runs", "layout_calls"]),
];

fn link_harness() {
    for (program, names) in ARCHIVES {
        for name in names {
            let archive = Path::new(&env::var("CARGO_MANIFEST_DIR").expect("CARGO_MANIFEST_DIR"))
                .join(format!("../target/staticlib/lib{name}.a"));
            println!("cargo:rerun-if-changed={}", archive.display());
            if !archive.is_file() {
                println!("cargo:warning={} is not there: run `tools/staticlib.sh {name}` for {program}", archive.display());
            }
            println!("cargo:rustc-link-arg-bin={program}={}", archive.display());
        }
    }
}

/// The folder of the published source: WGEN_SRC, else shared/docs/src beside the repository.
fn source_dir() -> PathBuf {
    let dir = match env::var("WGEN_SRC") {
        Ok(d) => PathBuf::from(d),
        Err(_) => Path::new(&env::var("CARGO_MANIFEST_DIR").expect("CARGO_MANIFEST_DIR")).join("../../shared/docs/src"),
    };
    if !dir.join("generators").is_dir() {
        panic!(
            "the published source is not in {}: set WGEN_SRC to the folder that holds generators/mod.rs",
            dir.display()
        );
    }
    dir
}

/// The text of one item with the attributes and doc comments right above it.
fn taken<'a>(text: &'a str, file: &str, item: &str) -> &'a str {
    let mut at = 0;
    let mut top = 0;
    for line in text.split_inclusive('\n') {
        if declares(line, item) {
            return text[top..end_of(text, at)].trim_end();
        }
        at += line.len();
        if !(line.starts_with("#[") || line.starts_with("///")) {
            top = at;
        }
    }
    panic!("{file} has no `{item}`");
}

/// Whether a line that starts in column 0 declares the item.
fn declares(line: &str, item: &str) -> bool {
    let bare = ["pub(crate) ", "pub(super) ", "pub "].iter().find_map(|v| line.strip_prefix(v)).unwrap_or(line);
    match bare.strip_prefix(item) {
        Some(rest) => !rest.starts_with(|c: char| c.is_alphanumeric() || c == '_'),
        None => false,
    }
}

/// Where the item that starts at `at` ends: after the bracket that closes its first brace, or after a semicolon outside
/// all brackets.
fn end_of(text: &str, at: usize) -> usize {
    let b = text.as_bytes();
    let mut depth = 0;
    let mut i = at;
    while i < b.len() {
        match b[i] {
            b'/' if b.get(i + 1) == Some(&b'/') => {
                while i < b.len() && b[i] != b'\n' {
                    i += 1;
                }
            }
            b'"' => i = after_string(b, i),
            b'(' | b'[' | b'{' => depth += 1,
            b')' | b']' => depth -= 1,
            b'}' => {
                depth -= 1;
                if depth == 0 {
                    return i + 1;
                }
            }
            b';' if depth == 0 => return i + 1,
            _ => {}
        }
        i += 1;
    }
    panic!("an item has no end");
}

/// The place of the quote that ends the string that starts at `i`.
fn after_string(b: &[u8], i: usize) -> usize {
    let mut j = i + 1;
    while b[j] != b'"' {
        j += if b[j] == b'\\' { 2 } else { 1 };
    }
    j
}

/// The item without serde's attributes and derives.
fn plain(item: &str) -> String {
    let mut text = item.replace(", Serialize, Deserialize", "");
    while let Some(start) = text.find("#[serde(") {
        let end = start + text[start..].find(")]").expect("an attribute ends") + 2;
        text.replace_range(start..end, "");
    }
    text
}

/// The item with the stand-ins in their places; what a stand-in should have replaced and did not fails the build.
fn edited(file: &str, item: &str, text: &str) -> String {
    let mut text = text.to_string();
    for (_, _, old, new, times) in EDITS.iter().filter(|e| e.0 == file && e.1 == item) {
        let found = text.matches(old).count();
        assert!(found == *times, "{file}, {item}: `{old}` stands {found} times, not {times}");
        text = text.replace(old, new);
    }
    let integer = INTEGER_MAX.iter().find(|e| e.0 == file && e.1 == item).map_or(0, |e| e.2);
    let left = text.matches(".max(").count();
    assert!(left == integer, "{file}, {item}: {left} `.max(` left, {integer} of integers known");
    for method in [".powf(", ".powi(", ".min(", ".clamp(", ".sqrt(", "mul_add"] {
        assert!(!text.contains(method), "{file}, {item}: `{method}` has no stand-in");
    }
    text
}
