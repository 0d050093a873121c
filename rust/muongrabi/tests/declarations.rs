//! The proved source, the C header and this crate declare the same things: functions, the order of what arrays hold, limits, refusals in numbers and
//! in words. No compiler sees more than one of them at a time, so their texts are compared.

use muongrabi::{Refusal, State, BLOCK, MOST_AREA, MOST_IMAGE, MOST_LIST, MOST_RESULT, MOST_STASHES, SAVED};
use std::mem::size_of;

const HEADER: &str = include_str!("../../../include/muongrabi.h");
const EXPORTS: &str = include_str!("../src/exports.rs");
const CRATE_LIMITS: &str = include_str!("../src/limits.rs");
const OUTCOME: &str = include_str!("../src/outcome.rs");
const BUILD: &str = include_str!("../build.rs");
/// The same declarations again, for tests that call the exports themselves.
const RAW: &str = include_str!("../../check/src/raw.rs");
const LIBRARY: &str = include_str!("../../../crates/muongrabi/src/lib.rt");
/// The same functions as the archive has them.
const ARCHIVE: &str = include_str!("../../../crates/muongrabi_c/src/lib.rt");
const LIMITS: &str = include_str!("../../../crates/state/src/limits.rt");
const REFUSALS: &str = include_str!("../../../crates/state/src/refusals.rt");
const SAVED_FORM: &str = include_str!("../../../crates/saved/src/lib.rt");
const LAYOUT: &str = include_str!("../../../crates/saved/src/layout.rt");

/// What stands between the first `from` and the next `to`.
fn between<'a>(text: &'a str, from: &str, to: &str) -> &'a str {
    let (_, after) = text.split_once(from).unwrap_or_else(|| panic!("no {from:?}"));
    after.split_once(to).unwrap_or_else(|| panic!("no {to:?} after {from:?}")).0
}

/// What follows `#define NAME`, up to its comment.
fn defined(name: &str) -> &'static str {
    between(HEADER, &format!("#define {name} "), "\n").split("/*").next().unwrap_or_default().trim()
}

/// The number of each `pub const` of a proved source.
fn constants(source: &str) -> Vec<(&str, usize)> {
    let consts = source.lines().filter_map(|line| line.strip_prefix("pub const ")?.strip_suffix(';')?.split_once(": usize = "));
    consts.filter_map(|(name, number)| Some((name, number.parse().ok()?))).collect()
}

/// `AreaSize` as `AREA_SIZE`.
fn constant_name(name: &str) -> String {
    let mut spelled = String::new();
    for c in name.chars() {
        if c.is_uppercase() && !spelled.is_empty() {
            spelled.push('_');
        }
        spelled.extend(c.to_uppercase());
    }
    spelled
}

/// The number of each reason of the proved source, under the name that a constant would have.
fn reasons() -> Vec<(String, usize)> {
    let arms = REFUSALS.lines().filter_map(|line| line.trim().strip_prefix("Reason::")?.strip_suffix(',')?.split_once(" => "));
    arms.filter_map(|(name, number)| Some((constant_name(name), number.parse().ok()?))).collect()
}

#[test]
fn version() {
    assert_eq!(defined("MUONGRABI_VERSION"), format!("\"{}\"", env!("CARGO_PKG_VERSION")));
}

#[test]
fn abi() {
    let number = defined("MUONGRABI_ABI");
    assert_eq!(between(LIBRARY, "const ABI: usize = ", ";"), number);
    let name = format!("muongrabi_abi_{number}");
    for (text, declared) in [
        (HEADER, format!("\nsize_t {name}(void);")),
        (EXPORTS, format!("fn {name}() -> usize;")),
        (ARCHIVE, format!("fn {name}() -> usize")),
        (BUILD, format!("\"{name}\"")),
    ] {
        assert!(text.contains(&declared), "{declared}");
    }
    // What goes with the number: `functions` has it whole.
    assert_eq!(number, "6");
}

#[test]
fn limits() {
    let proved = constants(LIMITS);
    for (source, header, limit) in [
        ("BLOCK_BYTES", "MUONGRABI_BLOCK", BLOCK),
        ("MOST_IMAGE_BLOCKS", "MUONGRABI_MOST_IMAGE", MOST_IMAGE),
        ("MOST_AREA_BLOCKS", "MUONGRABI_MOST_AREA", MOST_AREA),
        ("MOST_RESULT_BLOCKS", "MUONGRABI_MOST_RESULT", MOST_RESULT),
        ("MOST_LIST_BYTES", "MUONGRABI_MOST_LIST", MOST_LIST),
        ("MOST_STASHES", "MUONGRABI_MOST_STASHES", MOST_STASHES),
    ] {
        assert!(proved.contains(&(source, limit)), "{source}");
        assert_eq!(defined(header), format!("{limit}ul"), "{header}");
    }
    // A saved form is two tables, 16 numbers and five marks of two bytes, and a state is nothing else.
    assert_eq!(defined("MUONGRABI_SAVED"), format!("{SAVED}ul"));
    assert_eq!((length("SAVED_BYTES", proved_constant), SAVED), (SAVED, 20 * MOST_STASHES + 8 * MOST_STASHES + 8 * 16 + 5 * 2));
    assert_eq!(size_of::<State>(), SAVED);
}

#[test]
fn outcomes() {
    for (name, outcome, number) in [("DONE", "Done", 0), ("MORE", "More", 1), ("REFUSED", "Refused(refusal)", 2), ("STOP", "Stop", 3)] {
        assert_eq!(defined(&format!("MUONGRABI_{name}")), format!("{number}u"));
        assert_eq!(between(LIBRARY, &format!("const {name}: u64 = "), ";"), number.to_string());
        assert_eq!(between(LIBRARY, &format!("Outcome::{outcome} => ["), ",").trim(), name);
        // Here every number but three is a refusal.
        if name != "REFUSED" {
            assert_eq!(between(EXPORTS, &format!("pub const {name}: u64 = "), ";"), number.to_string());
            assert!(OUTCOME.contains(&format!("exports::{name} => Outcome::{outcome},")), "{name}");
        }
    }
}

#[test]
fn refusal_numbers() {
    let numbers = [
        ("AREA_SIZE", Refusal::AREA_SIZE),
        ("LIST_LENGTH", Refusal::LIST_LENGTH),
        ("HEADER_FORM", Refusal::HEADER_FORM),
        ("OTHER_VERSION", Refusal::OTHER_VERSION),
        ("HEADER_LIMIT", Refusal::HEADER_LIMIT),
        ("LINE_FORM", Refusal::LINE_FORM),
        ("UNSUPPORTED", Refusal::UNSUPPORTED),
        ("PAST_IMAGE", Refusal::PAST_IMAGE),
        ("PAST_AREA", Refusal::PAST_AREA),
        ("NOT_HELD", Refusal::NOT_HELD),
        ("SIZES_DIFFER", Refusal::SIZES_DIFFER),
        ("MISPLACED", Refusal::MISPLACED),
        ("HELD_ALREADY", Refusal::HELD_ALREADY),
        ("NO_ROOM", Refusal::NO_ROOM),
        ("TOTAL_DIFFERS", Refusal::TOTAL_DIFFERS),
        ("HASH_DIFFERS", Refusal::HASH_DIFFERS),
        ("STATE_IMPOSSIBLE", Refusal::STATE_IMPOSSIBLE),
        ("PAST_PATCH", Refusal::PAST_PATCH),
        ("PATCH_MALFORMED", Refusal::PATCH_MALFORMED),
        ("NO_SAVED_FORM", Refusal::NO_SAVED_FORM),
        ("SPARSE_HEADER", Refusal::SPARSE_HEADER),
        ("SPARSE_SIZES", Refusal::SPARSE_SIZES),
        ("SPARSE_IMAGE", Refusal::SPARSE_IMAGE),
        ("SPARSE_CHUNK", Refusal::SPARSE_CHUNK),
        ("SPARSE_PAST_IMAGE", Refusal::SPARSE_PAST_IMAGE),
        ("SPARSE_CHECKSUM", Refusal::SPARSE_CHECKSUM),
        ("SPARSE_END", Refusal::SPARSE_END),
    ];
    let of_header: Vec<(&str, usize)> = HEADER
        .lines()
        .filter_map(|line| line.trim().strip_prefix("MUONGRABI_REFUSAL_")?.split_once(" = "))
        .map(|(name, rest)| (name, rest.split([',', ' ']).next().and_then(|digits| digits.parse().ok()).expect("a number")))
        .collect();
    assert_eq!(of_header, numbers);
    assert_eq!(reasons(), numbers.map(|(name, number)| (name.to_string(), number)));
}

/// What the number means, in the crate's words.
fn text(number: usize) -> &'static str {
    Refusal::new(number, 0, 0).text()
}

#[test]
fn refusal_texts() {
    let rows = [("texts[] = {\n", 0, Refusal::NO_SAVED_FORM), ("texts_from_30[] = {\n", Refusal::SPARSE_HEADER, Refusal::SPARSE_END)];
    for (row, first, last) in rows {
        let table = between(HEADER, row, "    };\n");
        let texts: Vec<&str> =
            table.lines().map(|line| line.trim().strip_prefix('"').and_then(|rest| rest.strip_suffix("\",")).expect("a text")).collect();
        let ours: Vec<&str> = (first..=last).map(text).collect();
        assert_eq!(texts, ours);
    }
    assert_eq!(between(HEADER, "texts_from_30[number - 30];\n    return \"", "\";"), text(usize::MAX));
    for number in (Refusal::NO_SAVED_FORM + 1..Refusal::SPARSE_HEADER).chain([Refusal::SPARSE_END + 1]) {
        assert_eq!(text(number), text(usize::MAX), "{number}");
    }
    // A limit that a text names is the limit.
    for (number, limit) in [
        (Refusal::AREA_SIZE, BLOCK),
        (Refusal::LIST_LENGTH, MOST_LIST),
        (Refusal::HEADER_LIMIT, MOST_STASHES),
        (Refusal::SPARSE_SIZES, BLOCK),
        (Refusal::SPARSE_IMAGE, MOST_IMAGE),
    ] {
        assert!(text(number).split(' ').any(|word| word == limit.to_string()), "{}", text(number));
    }
}

#[test]
fn each_text_is_of_its_number() {
    for (number, words) in [
        (Refusal::AREA_SIZE, "not whole blocks"),
        (Refusal::LIST_LENGTH, "list is longer"),
        (Refusal::HEADER_FORM, "header line"),
        (Refusal::OTHER_VERSION, "version"),
        (Refusal::HEADER_LIMIT, "more than 256 stashes"),
        (Refusal::LINE_FORM, "not a command"),
        (Refusal::UNSUPPORTED, "imgdiff"),
        (Refusal::PAST_IMAGE, "past the image"),
        (Refusal::PAST_AREA, "larger than the work area"),
        (Refusal::NOT_HELD, "is not held"),
        (Refusal::SIZES_DIFFER, "sizes"),
        (Refusal::MISPLACED, "place"),
        (Refusal::HELD_ALREADY, "held already"),
        (Refusal::NO_ROOM, "line 3"),
        (Refusal::TOTAL_DIFFERS, "new, zero, move and bsdiff lines together"),
        (Refusal::HASH_DIFFERS, "does not have the hash"),
        (Refusal::STATE_IMPOSSIBLE, "state"),
        (Refusal::PAST_PATCH, "past the patch data"),
        (Refusal::PATCH_MALFORMED, "patch is malformed"),
        (Refusal::NO_SAVED_FORM, "saved form"),
        (Refusal::SPARSE_HEADER, "no sparse file"),
        (Refusal::SPARSE_SIZES, "header sizes"),
        (Refusal::SPARSE_IMAGE, "as many blocks as the sparse file says"),
        (Refusal::SPARSE_CHUNK, "unknown type"),
        (Refusal::SPARSE_PAST_IMAGE, "chunk of the sparse file ends past"),
        (Refusal::SPARSE_CHECKSUM, "checksum"),
        (Refusal::SPARSE_END, "after the last"),
    ] {
        assert!(text(number).contains(words), "{number}");
    }
}

#[test]
fn words() {
    assert_eq!(Refusal::new(Refusal::LIST_LENGTH, 0, 0).to_string(), "the list is longer than 4194304 bytes (refusal 2)");
    assert_eq!(Refusal::new(Refusal::OTHER_VERSION, 1, 0).to_string(), "line 1: the list's version is not 3 (refusal 4)");
    assert_eq!(Refusal::new(Refusal::SPARSE_PAST_IMAGE, 0, 0).to_string(), "a chunk of the sparse file ends past the image (refusal 34)");
    assert_eq!(Refusal::new(Refusal::NO_SAVED_FORM, 0, 0).to_string(), "the bytes are not the saved form of a state (refusal 20)");
    assert_eq!(Refusal::new(99, 7, 0).to_string(), "line 7: a number that no rule gives (refusal 99)");
    // A byte with 3 and 6, be it 0, and with no other number, whatever is held.
    let words = "a header line is missing, is no number from 0 to 4294967295 in plain digits, or has no line feed (refusal 3)";
    assert_eq!(Refusal::new(Refusal::HEADER_FORM, 1, 0).to_string(), format!("line 1, byte 0 of the list: {words}"));
    let words = "the line is not a command: its word is unknown, or its form is wrong (refusal 6)";
    assert_eq!(Refusal::new(Refusal::LINE_FORM, 14, 217).to_string(), format!("line 14, byte 217 of the list: {words}"));
    assert_eq!(Refusal::new(Refusal::OTHER_VERSION, 1, 5).to_string(), "line 1: the list's version is not 3 (refusal 4)");
    for number in 0..=Refusal::SPARSE_END + 1 {
        let with_byte = [Refusal::HEADER_FORM, Refusal::LINE_FORM].contains(&number);
        assert_eq!(Refusal::new(number, 2, 217).byte(), with_byte.then_some(217), "{number}");
        assert_eq!(Refusal::new(number, 2, 217).to_string().contains("217"), with_byte, "{number}");
        assert_eq!(Refusal::new(number, 2, 217).raw_byte(), 217);
    }
}

/// The fields of a struct of the header, in their order.
fn header_fields(name: &str) -> Vec<&'static str> {
    let body = between(HEADER, &format!("typedef struct muongrabi_{name} {{\n"), "\n}");
    let field = |line: &'static str| line.split(';').next()?.split('[').next()?.split(' ').next_back();
    body.lines().map(|line| field(line).expect("a field")).collect()
}

/// What stands in an array of a text, item by item.
fn items<'a>(text: &'a str, from: &str, to: &str) -> Vec<&'a str> {
    between(text, from, to).split(',').map(str::trim).filter(|item| !item.is_empty()).collect()
}

/// The numbers of a state behind its tables, by the names that the header's fields have, those of refusal and lengths where these stand.
fn state_numbers() -> Vec<String> {
    let fields = header_fields("fields");
    let (tables, numbers) = fields.split_at(2);
    assert_eq!(tables, ["hashes", "sizes"]);
    let parts = |field: &&str| match *field {
        part @ ("refusal" | "lengths") => header_fields(part).iter().map(|name| format!("{part}.{name}")).collect(),
        plain => vec![plain.to_string()],
    };
    numbers.iter().flat_map(parts).collect()
}

#[test]
fn numbers_of_a_state_in_their_order() {
    let expected = state_numbers();
    assert_eq!(expected.len(), 16);
    // This crate names the lengths alone, and has the list's beside them.
    let named = |name: &str| match name {
        "list" | "image" | "stash" | "work" | "result" | "patch" => format!("lengths.{name}"),
        "refused" => "refusal.number".into(),
        "refused_line" => "refusal.line".into(),
        "refused_byte" | "refusal.raw_byte" => "refusal.byte".into(),
        other => other.to_string(),
    };
    let written = items(EXPORTS, "let numbers = [\n", "];").into_iter().map(|item| named(item.trim_matches(['*', '(', ')'])));
    assert_eq!(written.collect::<Vec<_>>(), expected);
    let read = items(EXPORTS, "let [\n", "] = numbers;").into_iter().map(named);
    assert_eq!(read.collect::<Vec<_>>(), expected);
    let fields = items(between(LIBRARY, "fn numbers_of(state: &State)", "\n}\n"), "{\n    [\n", "    ]");
    let proved = fields.into_iter().map(|field| field.strip_prefix("state.").expect("a field of the state"));
    assert_eq!(proved.map(|field| field.strip_prefix("table.").unwrap_or(field)).collect::<Vec<_>>(), expected);
    for (k, name) in expected.iter().enumerate() {
        for both in [format!("numbers[{k}] = fields->{name};"), format!("fields->{name} = numbers[{k}];")] {
            assert!(HEADER.contains(&both), "{both}");
        }
    }
}

#[test]
fn answers_in_their_order() {
    let refusal = header_fields("refusal");
    assert_eq!(refusal, ["number", "line", "byte"]);
    assert_eq!(items(EXPORTS, "let [number", "] = answer"), refusal[1..]);
    assert_eq!(items(LIBRARY, "*answer = [\n", "];"), refusal.iter().map(|name| format!("opened.refusal.{name} as u64")).collect::<Vec<_>>());
    let answer = header_fields("answer");
    assert_eq!(answer, ["outcome", "number", "line", "byte", "taken"]);
    assert_eq!(items(OUTCOME, "fn of([", "]: [u64; 5])"), answer);
    let refused = items(LIBRARY, "Outcome::Refused(refusal) => [\n", "]");
    assert_eq!(refused, ["REFUSED", "refusal.number as u64", "refusal.line as u64", "refusal.byte as u64", "taken as u64"]);
    for (name, row, fields) in [("refusal", "answer", &refusal), ("answer", "numbers", &answer)] {
        for (k, field) in fields.iter().enumerate() {
            assert!(HEADER.contains(&format!("{name}.{field} = {row}[{k}];")), "{name}.{field}");
        }
    }
}

/// What a constant is said to be, in the proved source, in this crate and in the header.
fn proved_constant(name: &str) -> &'static str {
    constant(&[LIBRARY, LIMITS, SAVED_FORM, LAYOUT], name)
}

fn crate_constant(name: &str) -> &'static str {
    constant(&[EXPORTS, CRATE_LIMITS], name)
}

fn constant(sources: &[&'static str], name: &str) -> &'static str {
    let declared = format!("const {name}: usize = ");
    let source = sources.iter().find(|source| source.contains(&declared)).unwrap_or_else(|| panic!("no {declared:?}"));
    between(source, &declared, ";")
}

/// A length, which may be a sum of products of numbers and of constants.
fn length(text: &str, constant: fn(&str) -> &'static str) -> usize {
    let factor = |factor: &str| {
        let digits = factor.trim_end_matches("ul").replace('_', "");
        digits.parse().unwrap_or_else(|_| length(constant(factor), constant))
    };
    text.split('+').map(|term| term.split('*').map(str::trim).map(factor).product::<usize>()).sum()
}

/// A parameter as it crosses: a number, a pointer, or a pointer to so many; of a pointer, whether what it names is only read. Nothing else crosses,
/// and no struct. A slice is a pointer and a number.
fn crosses(name: &str, kind: &str, constant: fn(&str) -> &'static str) -> String {
    let name = name.trim().trim_end_matches("_length");
    let kind = kind.trim();
    if kind == "usize" {
        return format!("{name} number, ");
    }
    let pointers = [("&mut ", "mut"), ("&", "read"), ("*mut ", "mut"), ("*const ", "read")];
    let (to, used) = pointers.iter().find_map(|(sign, used)| Some((kind.strip_prefix(sign)?, used))).unwrap_or_else(|| panic!("what is {kind:?}?"));
    match to.strip_prefix('[').and_then(|inner| inner.strip_suffix(']')) {
        None => format!("{name} {used} {}, ", plain(to)),
        Some(inner) => match inner.split_once(';') {
            None => format!("{name} {used} {}, {name} number, ", plain(inner)),
            Some((of, many)) => format!("{name} {used} {} x {}, ", plain(of), length(many, constant)),
        },
    }
}

/// A number's type by its Rust name, and no other type.
fn plain(kind: &str) -> &str {
    assert!(["u8", "u64", "usize"].contains(&kind), "what is {kind:?}?");
    kind
}

/// The parameters of a function of Rust or of the proved source.
fn rust_crosses(source: &str, name: &str, constant: fn(&str) -> &'static str) -> String {
    let parameters = between(source, &format!("fn muongrabi_{name}("), ")").split(',').filter(|one| !one.trim().is_empty());
    let parted = parameters.map(|one| one.split_once(':').expect("a parameter"));
    parted.map(|(name, kind)| crosses(name, kind, constant)).collect()
}

/// A parameter of the header, in Rust's words.
fn header_crosses(one: &str) -> String {
    let (kind, name) = one.split('[').next().and_then(|declared| declared.rsplit_once(' ')).expect("a parameter");
    let (used, kind) = kind.strip_prefix("const ").map_or(("*mut", kind), |kind| ("*const", kind));
    let number = match kind {
        "uint8_t" => "u8",
        "uint64_t" => "u64",
        "size_t" => "usize",
        other => panic!("what is {other:?}?"),
    };
    match (name.strip_prefix('*'), one.split_once('[')) {
        (Some(name), None) => crosses(name, &format!("{used} {number}"), defined),
        (None, Some((_, many))) => crosses(name, &format!("{used} [{number};{many}"), defined),
        (None, None) => crosses(name, number, defined),
        (Some(_), Some(_)) => panic!("what is {one:?}?"),
    }
}

/// What each function takes and gives under this number of the ABI. Where a line of this changes, so does the number.
const ABI_6: [(&str, &str, &str); 7] = [
    ("digest", "bytes read u8, bytes number, out mut u8 x 20, ", ""),
    (
        "open",
        "list read u8, list number, image number, stash number, work number, result number, patch number, state mut u8 x 7306, answer mut u64 x 3, ",
        "",
    ),
    (
        "call",
        "list read u8, list number, image mut u8, image number, stash mut u8, stash number, work mut u8, work number, \
         result mut u8, result number, patch read u8, patch number, piece read u8, piece number, state mut u8 x 7306, answer mut u64 x 5, ",
        "",
    ),
    (
        "run",
        "list read u8, list number, image mut u8, image number, stash mut u8, stash number, work mut u8, work number, \
         result mut u8, result number, patch read u8, patch number, data read u8, data number, cuts read usize, cuts number, \
         state mut u8 x 7306, answer mut u64 x 5, ",
        "",
    ),
    ("save", "hashes read u8 x 5120, sizes read usize x 256, numbers read usize x 16, out mut u8 x 7306, ", ""),
    ("restore", "bytes read u8, bytes number, hashes mut u8 x 5120, sizes mut usize x 256, numbers mut usize x 16, ", " -> usize"),
    ("sparse_load", "file read u8, file number, image mut u8, image number, ", " -> u32"),
];

#[test]
fn functions() {
    for (name, takes, gives) in ABI_6 {
        let gives_in_c = match gives {
            " -> usize" => "size_t",
            " -> u32" => "uint32_t",
            _ => "void",
        };
        let parameters = between(HEADER, &format!("\n{gives_in_c} muongrabi_{name}("), ");").split(',').map(str::trim);
        assert_eq!(parameters.map(header_crosses).collect::<String>(), takes, "{name} in the header");
        assert_eq!(rust_crosses(EXPORTS, name, crate_constant), takes, "{name} in this crate");
        // `data` and `result` are no names for a parameter in the proved source.
        let proved = rust_crosses(ARCHIVE, name, proved_constant).replace(", res ", ", result ");
        assert_eq!(if name == "run" { proved.replace("bytes", "data") } else { proved }, takes, "{name} in the proved source");
        for source in [EXPORTS, ARCHIVE] {
            let (_, declared) = source.split_once(&format!("fn muongrabi_{name}(")).expect("a function");
            assert_eq!(between(declared, ")", "\n").trim_end_matches(';'), gives, "{name}");
        }
    }
}

/// The names that follow this in a text, each up to its bracket.
fn names<'a>(text: &'a str, before: &str) -> Vec<&'a str> {
    text.split(before).skip(1).filter_map(|after| after.split('(').next()).collect()
}

#[test]
fn no_function_is_left_out() {
    let mut all: Vec<&str> = vec!["abi_6"];
    all.extend(ABI_6.map(|(name, ..)| name));
    assert_eq!(names(ARCHIVE, "#[unsafe(no_mangle)]\npub extern \"C\" fn muongrabi_"), all);
    assert_eq!(names(EXPORTS, "    fn muongrabi_"), all);
    let declared = HEADER.lines().filter(|line| ["void ", "size_t ", "uint32_t "].iter().any(|gives| line.starts_with(gives)));
    assert_eq!(declared.flat_map(|line| names(line, " muongrabi_")).collect::<Vec<_>>(), all);
}

#[test]
fn those_who_call_the_exports_themselves_declare_them_alike() {
    for name in names(RAW, "    fn muongrabi_") {
        let declared = |source| between(source, &format!("    fn muongrabi_{name}("), ";\n");
        assert_eq!(declared(RAW), declared(EXPORTS), "{name}");
    }
    for name in ["TABLE_BYTES", "NUMBERS"] {
        assert_eq!(constant(&[RAW], name), crate_constant(name));
    }
}
