//! Nothing in the languages holds the declarations of the C functions against their source. This does: the functions of
//! `crates/capi_c`, `include/mlhe.h` and `src/ffi.rs` have the same names, parameters and types, in the same order, and
//! the house setting has the same numbers in `crates/levels`, `include/mlhe.h` and `src/settings.rs`. Header and crate
//! have the same version, refusals, reasons, sizes, rules, neighbours and counts.

use mlhe::{Pass, PassList, Refusal, Rule, Settings};
use mlhe::{
    GREATEST_CLIP, GREATEST_HEADER, GREATEST_HIGH, GREATEST_LEVEL, GREATEST_LIST, GREATEST_PASSES, GREATEST_PIXELS,
    GREATEST_SEGMENTS, GREATEST_SIDE, GREATEST_SLOPE,
};
use std::collections::BTreeMap;
use std::fs;
use std::path::Path;

/// For each function its parameters: name and C type.
type Functions = BTreeMap<String, Vec<(String, String)>>;

fn text(name: &str) -> String {
    let path = Path::new(env!("CARGO_MANIFEST_DIR")).join("..").join(name);
    fs::read_to_string(&path).unwrap_or_else(|error| panic!("{}: {error}", path.display()))
}

/// The text between a mark and the next closing parenthesis, for each place where the mark stands.
fn parameter_lists<'a>(text: &'a str, mark: &str) -> Vec<(&'a str, Vec<&'a str>)> {
    let heads = text.split(mark).skip(1);
    let split = |head: &'a str| {
        let (name, rest) = head.split_once('(').expect("a parameter list");
        let (parameters, _) = rest.split_once(')').expect("an end of it");
        (name.trim(), parameters.split(',').map(str::trim).filter(|one| !one.is_empty()).collect())
    };
    heads.map(split).collect()
}

fn number_type(rust: &str) -> &'static str {
    match rust {
        "u8" => "uint8_t",
        "u16" => "uint16_t",
        "u32" => "uint32_t",
        "usize" => "size_t",
        other => panic!("no such type: {other}"),
    }
}

/// A slice is a pointer and its length.
fn of_rattle() -> Functions {
    let text = text("crates/capi_c/src/lib.rt");
    let mut functions = Functions::new();
    for (name, parameters) in parameter_lists(&text, "pub extern \"C\" fn ") {
        let mut listed = Vec::new();
        for parameter in parameters {
            let (name, kind) = parameter.split_once(": ").expect("a type");
            let slice = kind.strip_suffix(']').and_then(|kind| kind.split_once('['));
            let Some((reference, element)) = slice else {
                listed.push((name.to_string(), number_type(kind).to_string()));
                continue;
            };
            let constant = if reference == "&" { "const " } else { "" };
            listed.push((name.to_string(), format!("{constant}{} *", number_type(element))));
            listed.push((format!("{name}_length"), "size_t".to_string()));
        }
        functions.insert(name.to_string(), listed);
    }
    functions
}

fn of_header() -> Functions {
    let text = text("include/mlhe.h");
    let mut functions = Functions::new();
    for (name, parameters) in parameter_lists(&text, "\nint64_t ") {
        let one = |parameter: &str| {
            let words = parameter.split_whitespace().collect::<Vec<_>>().join(" ");
            let place = words.rfind([' ', '*']).expect("a type") + 1;
            (words[place..].to_string(), words[..place].trim().to_string())
        };
        functions.insert(name.to_string(), parameters.into_iter().map(one).collect());
    }
    functions
}

fn of_rust() -> Functions {
    let text = text("rust/src/ffi.rs");
    let mut functions = Functions::new();
    for (name, parameters) in parameter_lists(&text, "pub fn ") {
        let one = |parameter: &str| {
            let (name, kind) = parameter.split_once(": ").expect("a type");
            let pointer = |element: &str, constant: &str| format!("{constant}{} *", number_type(element));
            let kind = match (kind.strip_prefix("*const "), kind.strip_prefix("*mut ")) {
                (Some(element), _) => pointer(element, "const "),
                (_, Some(element)) => pointer(element, ""),
                _ => number_type(kind).to_string(),
            };
            (name.to_string(), kind)
        };
        functions.insert(name.to_string(), parameters.into_iter().map(one).collect());
    }
    functions
}

#[test]
fn the_declarations_agree() {
    let rattle = of_rattle();
    assert_eq!(rattle.len(), 8);
    assert_eq!(rattle, of_header());
    assert_eq!(rattle, of_rust());
}

/// From each function's name to its body: parameters, type and contract.
fn contracts(name: &str, mark: &str) -> BTreeMap<String, String> {
    let text = text(name);
    let heads = text.split(mark).skip(1);
    let split = |head: &str| {
        let (signature, _) = head.split_once("\n{\n").expect("a body");
        let words = signature.split_whitespace().collect::<Vec<_>>().join(" ").replace("( ", "(").replace(", )", ")");
        (words.split('(').next().expect("a name").to_string(), words)
    };
    heads.map(split).collect()
}

/// What is exported has the signatures and the contracts of the libraries' functions, which are those that the claims
/// speak of.
#[test]
fn the_exports_have_the_contracts_of_the_library() {
    let export = "pub extern \"C\" fn ";
    let exported = contracts("crates/capi_c/src/lib.rt", export);
    assert_eq!(exported.len(), 8);
    assert!(exported.values().all(|words| words.contains("ensures {")));
    assert_eq!(exported, contracts("crates/capi/src/lib.rt", "pub fn "));
    let exported = contracts("crates/frames_c/src/lib.rt", export);
    assert_eq!(exported.len(), 1);
    assert_eq!(exported, contracts("crates/frames/src/export.rt", "pub fn "));
}

/// The program's function, which another library has.
#[test]
fn the_declarations_of_the_program_agree() {
    let rattle = text("crates/frames_c/src/lib.rt");
    assert!(rattle.contains("fn mlhe_program(input: &[u8], output: &mut [u8; 65536]) -> usize\n"));
    let header = text("include/mlhe_program.h");
    assert!(header.contains("\nsize_t mlhe_program(const uint8_t *input, size_t input_length, uint8_t *output);\n"));
    let tested = text("tests/hostile/src/lib.rs");
    assert!(tested.contains("fn mlhe_program(input: *const u8, input_length: usize, output: *mut u8) -> usize;"));
    let constants = text("crates/frames/src/lib.rt") + &text("crates/printing/src/lib.rt");
    for name in ["INPUT", "OUTPUT", "PIXELS"] {
        let library = number_after(&constants, &format!("pub const {name}: usize = "));
        assert_eq!(number_after(&header, &format!("MLHE_PROGRAM_{name} = ")), library);
    }
}

#[test]
fn the_version_of_the_header_is_that_of_the_crate() {
    let header = text("include/mlhe.h");
    let part = |name| number_after(&header, &format!("#define MLHE_VERSION_{name} "));
    let version = format!("{}.{}.{}", part("MAJOR"), part("MINOR"), part("PATCH"));
    assert_eq!(version, env!("CARGO_PKG_VERSION"));
    assert!(header.contains(&format!("\n#define MLHE_VERSION \"{version}\"\n")));
}

#[test]
fn the_sizes_of_the_header_are_those_of_the_crate() {
    let header = text("include/mlhe.h");
    let sizes = [
        ("SIDE", GREATEST_SIDE),
        ("PIXELS", GREATEST_PIXELS),
        ("HEADER", GREATEST_HEADER),
        ("PASSES", GREATEST_PASSES),
        ("LEVEL", GREATEST_LEVEL.into()),
        ("HIGH", GREATEST_HIGH.into()),
        ("CLIP", GREATEST_CLIP.into()),
        ("SEGMENTS", GREATEST_SEGMENTS.into()),
        ("SLOPE", GREATEST_SLOPE.into()),
    ];
    for (name, size) in sizes {
        assert_eq!(number_after(&header, &format!("MLHE_GREATEST_{name} = ")) as usize, size);
    }
    // The longest list follows from the most passes, and these are the library's.
    assert!(header.contains("    MLHE_GREATEST_LIST = 7 + 16 * MLHE_GREATEST_PASSES,\n"));
    assert_eq!(GREATEST_LIST, 7 + 16 * GREATEST_PASSES);
    let library = text("crates/listchecks/src/lib.rt");
    assert_eq!(number_after(&library, "pub const COUNT: usize = ") as usize, GREATEST_PASSES);
    assert!(Refusal::ListLength.reason().contains(&format!("more than {GREATEST_PASSES} passes")));
    let named = header.lines().filter(|line| line.starts_with("    MLHE_GREATEST_")).count();
    assert_eq!(named, sizes.len() + 1);
}

/// The counts that the crate lends are as many as the header says, and each stands at its place.
#[test]
fn the_counts_of_the_header_are_those_of_the_crate() {
    let header = text("include/mlhe.h");
    let [counts, retoned, kept] =
        ["COUNTS", "RETONED", "KEPT"].map(|name| number_after(&header, &format!("MLHE_{name} = ")));
    assert_eq!([retoned, kept], [0, 1]);
    assert_eq!(text("rust/src/lent.rs").matches(&format!("let mut counts = [0; {counts}];")).count(), 3);
    assert!(text("rust/src/counts.rs").contains(&format!("of_lent([retoned, kept]: [usize; {counts}])")));
}

/// The crate writes the header's codes, and lends a rule's numbers in the header's places.
#[test]
fn the_rules_of_the_header_are_those_of_the_crate() {
    let header = text("include/mlhe.h");
    let numbers = |names: &[&str]| -> Vec<u32> {
        names.iter().map(|name| number_after(&header, &format!("MLHE_{name} = "))).collect()
    };
    let rules =
        [Rule::Plain { low: 0, high: 1 }, Rule::Limited { k: 2 }, Rule::Affine { segments: 3, smin: 4, smax: 5 }];
    let list = PassList::new(&rules.map(|rule| Pass::new(0, 255, 1, rule))).expect("accepted");
    let codes: Vec<u32> = list.bytes()[7..].chunks(12).map(|record| record[2].into()).collect();
    assert_eq!(numbers(&["PLAIN", "LIMITED", "AFFINE"]), codes);
    assert_eq!(numbers(&["RULE_CODE", "RULE_FIRST", "RULE_SECOND", "RULE_SEGMENTS"]), [0, 1, 2, 3]);
    assert_eq!(numbers(&["RULE_NEIGHBOURS", "RULE_NUMBERS", "PASS_NUMBERS"]), [4, 4, 5]);
    assert!(text("rust/src/pass.rs").contains("[code.into(), first, second, segments.into(), neighbours.into()]"));
}

/// The numbers of neighbours of the header are those that the library takes, and the crate's own is the first.
#[test]
fn the_neighbours_of_the_header_are_those_of_the_crate() {
    let header = text("include/mlhe.h");
    let named = ["FOUR", "EIGHT"].map(|name| number_after(&header, &format!("MLHE_{name}_NEIGHBOURS = ")));
    let pass = Pass::new(0, 255, 1, Rule::Limited { k: 2 });
    let is_taken = |&number: &u8| PassList::new(&[pass.with_neighbours(number)]).is_ok();
    assert_eq!(named.to_vec(), (0..=u8::MAX).filter(is_taken).map(u32::from).collect::<Vec<_>>());
    assert_eq!(u32::from(pass.neighbours), named[0]);
}

#[test]
fn the_reasons_of_the_header_are_those_of_the_crate() {
    let header = text("include/mlhe.h");
    let quoted = |case: &str| case.split('"').nth(1).expect("a reason").to_string();
    let reasons: Vec<String> = header.split("case MLHE_REFUSED_").skip(1).map(quoted).collect();
    assert_eq!(reasons, Refusal::ALL.iter().map(|refusal| refusal.reason()).collect::<Vec<_>>());
}

#[test]
fn the_refusals_of_the_header_are_those_of_the_crate() {
    let text = text("include/mlhe.h");
    let numbers: Vec<u8> = text
        .lines()
        .filter_map(|line| line.trim().strip_prefix("MLHE_REFUSED_")?.split_once(" = "))
        .map(|(_, rest)| {
            let digits: String = rest.chars().take_while(char::is_ascii_digit).collect();
            digits.parse().expect("a number")
        })
        .collect();
    assert_eq!(numbers, Refusal::ALL.iter().map(|refusal| refusal.number()).collect::<Vec<_>>());
}

/// The refusals of the library's own source have the crate's numbers; those by the number of neighbours are told apart.
#[test]
fn the_refusals_of_the_library_are_those_of_the_crate() {
    let library = text("crates/planes/src/refusal.rt");
    let (_, variants) = library.split_once("pub enum Refusal {").expect("the refusals");
    let (variants, _) = variants.split_once("\n}").expect("an end of them");
    let numbers: Vec<&str> = variants
        .lines()
        .filter_map(|line| line.strip_suffix(',')?.split_once(" = "))
        .map(|(_, number)| number)
        .collect();
    assert_eq!(numbers, Refusal::ALL.iter().map(|refusal| refusal.number().to_string()).collect::<Vec<_>>());
    for (name, refusal) in [("Neighbours", Refusal::Neighbours), ("NoPlace", Refusal::EightNeighbours)] {
        assert_eq!(number_after(&library, &format!(" {name} = ")), refusal.number().into());
    }
}

/// The number after a mark, which stands once in the text.
fn number_after(text: &str, mark: &str) -> u32 {
    let parts: Vec<&str> = text.split(mark).collect();
    assert_eq!(parts.len(), 2, "{mark}");
    let digits: String = parts[1].chars().take_while(char::is_ascii_digit).collect();
    digits.parse().expect("a number")
}

/// The number that stands after each of the names of the house setting's numbers and `between`.
fn house_numbers(text: &str, prefix: &str, between: [&str; 5]) -> [u32; 5] {
    let names = ["LAST", "AREA", "LOW", "HIGH", "NEIGHBOURS"];
    [0, 1, 2, 3, 4].map(|place| number_after(text, &format!("{prefix}{}{} = ", names[place], between[place])))
}

#[test]
fn the_house_settings_agree() {
    let types = [": u8", ": u32", ": u16", ": u16", ": u8"];
    let library = house_numbers(&text("crates/levels/src/lib.rt"), "pub const HOUSE_", types);
    let header = text("include/mlhe.h");
    assert_eq!(house_numbers(&header, "MLHE_HOUSE_", [""; 5]), library);
    assert!(header.contains("MLHE_HOUSE_RULE = MLHE_PLAIN,"));
    assert!(header.contains("#define MLHE_HOUSE_NUMBERS {MLHE_HOUSE_RULE, MLHE_HOUSE_LOW, MLHE_HOUSE_HIGH, 0}\n"));
    let [last, area, low, high, neighbours] = library;
    let number = |number: u32| u16::try_from(number).expect("16 bits");
    let rule = Rule::Plain { low: number(low), high: number(high) };
    assert_eq!(Settings::house(), Settings::new(last as u8, area, rule).with_neighbours(neighbours as u8));
    assert_eq!(Settings::default(), Settings::HOUSE);
}
