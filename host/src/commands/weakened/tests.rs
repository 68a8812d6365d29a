use super::checks::{read, Checked, Refused};
use super::texts::{
    alone, calls, crates_below, laws, weaken_answers, weaken_promise, with_fewer_uses, Law,
};
use super::{Copies, Trial};
use std::collections::BTreeSet;
use std::fs;

const CODE: &str = "\
// Lets flows in.
#![tactic(auto)]

ghost use Rattle.std.specs.Prelude.{◌≡◌, ◌+◌};
ghost use Rattle.desk.specs.Calls.{admit_of, Asked};

// Not admit(flow), but fn admit(flow) below.
fn admit_all(flow: u8) -> u8
    ensures { result ≡ 1 }
{
    flow
}

// Lets one in.
pub fn admit<'a>(
    flow: u8,
    cells: &'a mut [u32],
) -> u8
    requires { Asked flow }
    ensures told { (result, cells.new)
        ≡ admit_of flow cells.old }
    ensures more { result ≡ flow + 0 }
{
    admit_all(flow)
}

pub fn plain(flow: u8) -> u8 {
    flow
}

pub fn after(flow: u8) -> u8
    ensures { result ≡ 2 }
{
    flow
}
";

#[test]
fn only_the_promise_of_the_function_is_weakened() {
    let promises = "told { (result, cells.new)\n        ≡ admit_of flow cells.old }\n    ensures more { result ≡ flow + 0 }";
    let expected = CODE.replace(promises, "{ result ≡ result }");
    assert_ne!(expected, CODE);
    assert_eq!(weaken_promise(CODE, "admit").unwrap(), expected);
    let expected = CODE.replace("{ result ≡ 1 }", "{ result ≡ result }");
    assert_eq!(weaken_promise(CODE, "admit_all").unwrap(), expected);
}

#[test]
fn the_promise_of_a_method_is_weakened_where_it_stands() {
    let method = "\nimpl Desk {\n    pub fn count(&self) -> u8\n        ensures { result ≡ 3 }\n    {\n        3\n    }\n}\n";
    let code = format!("{CODE}{method}");
    let expected = code.replace("{ result ≡ 3 }", "{ result ≡ result }");
    assert_eq!(weaken_promise(&code, "count").unwrap(), expected);
}

#[test]
fn a_function_without_a_promise_is_not_weakened() {
    assert_eq!(weaken_promise(CODE, "plain"), None);
    assert_eq!(weaken_promise(CODE, "adm"), None);
    assert_eq!(weaken_promise(CODE, "missing"), None);
}

/// Where the file has no import of equations, or one of the library without `≡`.
#[test]
fn the_weaker_promise_is_readable() {
    let import = "ghost use Rattle.std.specs.Prelude.{◌≡◌, ◌+◌};\n";
    let without = CODE.replace(import, "");
    let weakened = weaken_promise(&without, "after").unwrap();
    let added = "ghost use Rattle.std.specs.Prelude.{◌≡◌};\nghost use Rattle.desk";
    assert!(weakened.contains(added));
    let other = CODE.replace("{◌≡◌, ◌+◌}", "{◌+◌}");
    let weakened = weaken_promise(&other, "after").unwrap();
    assert!(weakened.contains("\nghost use Rattle.std.specs.Prelude.{◌+◌, ◌≡◌};\n"));
    let second = CODE.replace(import, &format!("{}{import}", import.replace("◌≡◌, ", "")));
    let weakened = weaken_promise(&second, "after").unwrap();
    assert_eq!(weakened, second.replace("result ≡ 2", "result ≡ result"));
}

const ANSWERS: &str = "\
-- Right because it returns.
use mathlib.Core.Path.{sym, ◌∙◌}
use Rattle.desk.specs.Calls.{admit_of}
use Rattle.desk.proofs.admit.Goals as goal

returned : Unit
returned = unit

pub returns : goal.returns
unfolding admit_of
returns c = go c
  where
    go : Unit
    go = unit

pub loop-i-init : goal.loop-i-init
loop-i-init c = c.requires

pub returns-then-n-ge64 : goal.returns-then-n-ge64
returns-then-n-ge64 c =
    let e = sym c.admit_all.ensures in
    e ∙ e

pub admit_all-requires : goal.admit_all-requires
admit_all-requires c = c.requires

pub returns-after-loop-i : goal.returns-after-loop-i
returns-after-loop-i t c = (
  c.loop-i.invariant,
)
";

const WEAKENED: &str = "\
-- Right because it returns.
use mathlib.Core.Path.{sym, ◌∙◌}
use Rattle.desk.specs.Calls.{admit_of}
use Rattle.desk.proofs.admit.Goals as goal

returned : Unit
returned = unit


pub loop-i-init : goal.loop-i-init
loop-i-init c = c.requires


pub admit_all-requires : goal.admit_all-requires
admit_all-requires c = c.requires

";

#[test]
fn no_return_has_an_answer() {
    assert_eq!(weaken_answers(ANSWERS), WEAKENED);
    assert_eq!(weaken_answers(WEAKENED), WEAKENED);
}

/// Only the answers at returns named the place of the other way out.
#[test]
fn places_that_no_answer_names_are_not_imported() {
    let uses = "use Rattle.desk.proofs.admit.Goals.{then-free, then-free+else-late}\n";
    let kept = "\npub loop-i-preserved : goal.loop-i-preserved\nloop-i-preserved c =\n    elim c.if-free.branch [\n      | then-free w ↦ refl\n    ]\n";
    let returns = "\npub returns : goal.returns\nreturns c =\n    elim c.if-free.branch [\n      | then-free+else-late w ↦ refl\n    ]\n";
    let fewer = uses.replace(", then-free+else-late", "");
    let weakened = weaken_answers(&format!("{uses}{kept}{returns}"));
    assert_eq!(weakened.trim_end(), format!("{fewer}{kept}").trim_end());
    assert!(!weaken_answers(&format!("{uses}{returns}")).contains("use "));
}

const LAWS: &str = "\
-- Contracts give equations.
use mathlib.Core.Path.{refl}
use Rattle.std.specs.Prelude.{◌≡◌}
use Rattle.desk.specs.Calls.{admit_of, Shown}
use Rattle.rule.specs.Words.{ruled}
use Rattle.desk.proofs.admit.Reads as admits
use Rattle.gate.proofs.open_gate.Reads as gates

-- What admit gives.
pub admitting : (a : _) (r : _)
    → admits.Post a r → Shown r ≡ admit_of a.0.now
unfolding Shown
admitting a r p = p

pub opening : (a : _) (r : _) → gates.Post a r → r ≡ ruled a
opening a r p = p
";

fn law(name: &str, owner: &str, function: &str) -> Law {
    Law {
        name: name.to_string(),
        owner: owner.to_string(),
        function: function.to_string(),
    }
}

#[test]
fn laws_are_found_with_the_contracts_that_they_read() {
    let expected = [
        law("admitting", "desk", "admit"),
        law("opening", "gate", "open_gate"),
    ];
    assert_eq!(laws(LAWS).unwrap(), expected);
    let unread = LAWS.replace("gates.Post a r", "ruled r");
    assert_eq!(laws(&unread).unwrap_err(), "no law reads gate::open_gate");
}

fn names(names: &[&str]) -> BTreeSet<String> {
    names.iter().map(|name| name.to_string()).collect()
}

#[test]
fn a_law_alone_keeps_what_it_names() {
    let expected = "\
use mathlib.Core.Path.{refl}
use Rattle.std.specs.Prelude.{◌≡◌}
use Rattle.desk.specs.Calls.{admit_of, Shown}
use Rattle.desk.proofs.admit.Reads as admits

pub admitting : (a : _) (r : _)
    → admits.Post a r → Shown r ≡ admit_of a.0.now
unfolding Shown
admitting a r p = p
";
    let (text, owners) = alone(LAWS, "admitting").unwrap();
    assert_eq!((text.as_str(), owners), (expected, names(&["desk"])));
    let (_, owners) = alone(LAWS, "opening").unwrap();
    assert_eq!(owners, names(&["gate", "rule"]));
    assert!(alone(LAWS, "missing").is_err());
}

const LISTED: &str = "\
# level 0
lists:
rule: lists

# level 1
gate: rule
desk: lists
hall: desk

# level 2
hall_c staticlib: hall desk
contracts: hall gate desk rule lists
";

#[test]
fn the_crate_of_a_law_alone_uses_what_the_law_needs() {
    let fewer = with_fewer_uses(LISTED, "contracts", &names(&["gate"]));
    let expected = LISTED.replace("hall gate desk rule lists", "gate rule lists");
    assert_eq!(fewer, expected);
    assert_eq!(crates_below(LISTED, "hall"), ["lists", "desk"]);
    assert_eq!(crates_below(LISTED, "hall_c"), ["lists", "desk", "hall"]);
}

const PRINTED: &str = "\
rt: chose --jobs 2 for desk
./proofs/admit/Answers.antt:3:1: note: nothing
fn desk::admit: proved
logic=proved functions=1
rt: chose --jobs 2 for hall
checked hall::enter, 1 of 2
./proofs/enter/Answers.antt:45:13: error: `returns`: not this
./proofs/leave/Answers.antt:8:1: error: `returns`: nor this
fn hall::enter: not proved
fn hall::leave: not proved
logic=not-proved
rattle build: nothing was built, since only a proved crate is built
src/lib.rt:8:1: error[later]: of the crate above
only=0 proved=0
rt: the library hall did not build, so nothing above it was checked
";

#[test]
fn the_first_refused_crate_is_told_with_its_first_error() {
    let error = "crates/hall/proofs/enter/Answers.antt:45:13: error: `returns`: not this";
    let expected = Checked {
        refused: Some(Refused {
            owner: "hall".to_string(),
            error: error.to_string(),
        }),
        unproved: vec!["hall::enter".to_string(), "hall::leave".to_string()],
    };
    let checked = read(PRINTED, "contracts", Some(1)).unwrap();
    assert_eq!(checked, expected);
}

const WITHOUT_ERROR: &str = "\
rt: chose --jobs 2 for hall
note: src/lib.rt:100:1: it is not proved that what the function ensures holds
fn hall::enter: proved
fn hall::leave: no proof: the search found none
logic=not-proved
rt: rt check --start hall::leave --allow-holes writes a function's proof files
";

#[test]
fn a_function_that_rt_finds_no_proof_of_is_told_as_unproved() {
    let checked = read(WITHOUT_ERROR, "hall", Some(1)).unwrap();
    let refused = checked.refused.unwrap();
    assert_eq!(refused.owner, "hall");
    assert_eq!(
        refused.error,
        "fn hall::leave: no proof: the search found none"
    );
    assert_eq!(checked.unproved, ["hall::leave"]);
}

/// Of code, of a definition and of a law that no function names.
#[test]
fn an_error_is_told_with_its_crate() {
    for (line, told) in [
        (
            "src/lib.rt:23:15: error: `ensures-1`: no",
            "crates/hall/src/lib.rt:23:15: error: `ensures-1`: no",
        ),
        (
            "src/lib.rt:8:1: error[reserved-name]: no",
            "crates/hall/src/lib.rt:8:1: error[reserved-name]: no",
        ),
        (
            "./specs/Words.antt:2:1: error: no",
            "crates/hall/specs/Words.antt:2:1: error: no",
        ),
        (
            "./proofs/Laws.antt:8:29: error: `opening`: no",
            "crates/hall/proofs/Laws.antt:8:29: error: `opening`: no",
        ),
    ] {
        let printed = format!("rt: chose --jobs 1 for hall\n{line}\nlogic=not-proved\n");
        let refused = read(&printed, "hall", Some(1)).unwrap().refused.unwrap();
        assert_eq!(
            (refused.owner.as_str(), refused.error.as_str()),
            ("hall", told)
        );
    }
}

/// A check that proves all, ones that could not tell or were ended, and a refusal without an error.
#[test]
fn only_a_verdict_of_the_prover_is_a_refusal() {
    let proved = "rt: chose --jobs 2 for hall\nfn hall::enter: proved\nlogic=proved functions=1\n";
    assert_eq!(read(proved, "hall", Some(0)).unwrap().refused, None);
    for status in [Some(2), Some(3), Some(101), None] {
        assert!(read(PRINTED, "contracts", status).is_err());
    }
    assert!(read(proved, "hall", Some(1)).is_err());
}

#[test]
fn calls_are_found_by_path_by_import_and_as_methods() {
    for code in [
        "desk::admit(flow);",
        "use desk::admit;",
        "use desk::{admit, Asked};",
        "use desk::{\n    Asked,\n    admit,\n};",
    ] {
        assert!(calls(code, "desk", "admit"), "{code}");
    }
    for code in [
        "use desk::{admit_all, Asked};",
        "use hall::{admit};",
        "admit(flow);",
    ] {
        assert!(!calls(code, "desk", "admit"), "{code}");
    }
    assert!(calls("desk.count()", "desk", "Desk/count"));
}

/// Other proofs of the crate may need crates that the law does not.
#[test]
fn no_other_proofs_stay_beside_a_law_alone() {
    let copies = Copies::new().unwrap();
    let proofs = copies.0.join("crates/contracts/proofs");
    fs::create_dir_all(proofs.join("Facts")).unwrap();
    for (name, text) in [
        ("Lib.antt", "pub mod Laws\npub mod Facts\n"),
        ("Laws.antt", LAWS),
        ("Facts.antt", "pub mod Plans\n"),
        ("Facts/Plans.antt", "use Rattle.hall.specs.Words.{short}\n"),
    ] {
        fs::write(proofs.join(name), text).unwrap();
    }
    fs::write(copies.0.join("crates.txt"), LISTED).unwrap();
    let law = law("admitting", "desk", "admit");
    let trial = Trial {
        reader: "contracts",
        law,
    };
    trial.leave_alone(&copies.0).unwrap();
    let entries = fs::read_dir(&proofs).unwrap();
    let left: BTreeSet<String> = entries
        .map(|entry| entry.unwrap().file_name().into_string().unwrap())
        .collect();
    assert_eq!(left, names(&["Laws.antt", "Lib.antt"]));
    let modules = fs::read_to_string(proofs.join("Lib.antt")).unwrap();
    assert_eq!(modules, "pub mod Laws\n");
}
