//! docs/STATEMENTS.md is what the sources say, and docs/CLAIMS.md names what is there. A small repository shows what changes the page and what is told.

use crate::programs::lines::first_difference;
use crate::repository::places::{read_text, top, Folder};
use crate::statements::{difference, faults_of_claims, statements, write};
use std::fs;
use std::path::PathBuf;

#[test]
fn the_statements_are_those_of_the_sources() {
    let told = difference(&top()).unwrap();
    assert!(told.is_none(), "{}", told.unwrap());
}

#[test]
fn the_claims_name_what_is_there_and_every_public_function() {
    let faults = faults_of_claims(&top()).unwrap();
    assert!(faults.is_empty(), "{}", faults.join("\n"));
}

const CODE: &str = "\
// Lets flows in.
#![tactic(auto)]

ghost use Rattle.std.specs.Prelude.{◌≡◌, ◌+◌};
ghost use Rattle.desk.specs.Calls.{admit_of as admitted, Asked};

#[derive(Clone, Copy)]
pub struct Answer {
    // Whether it is let in.
    pub given: bool,
}

pub enum Verdict {
    Accepted,
    Refused(u8),
}

impl Answer {
    // Nobody is let in.
    pub fn none() -> Answer
        ensures { result.given ≡ false }
    {
        Answer { given: false }
    }

    fn hidden(&self) -> bool {
        self.given
    }

    pub fn is_given(&self) -> bool {
        self.hidden()
    }
}

// Lets one in.
pub fn admit(
    flow: u8,
    cells: &mut [u32],
) -> Answer
    requires { Asked flow }
    ensures told { (result.given, cells.new)
        ≡ admitted flow cells.old }
    ensures some { flow ≡ 0 + flow }
{
    inner(flow)
}

fn inner(flow: u8) -> Answer
    ensures { result.given ≡ true }
{
    Answer { given: true }
}

pub(crate) fn hidden_flow(flow: u8) -> u8 {
    flow
}

#[unsafe(no_mangle)]
pub extern \"C\" fn plain(flow: u8) -> u8 {
    flow
}
";

const CALLS: &str = "\
-- What calls give.
use Rattle.std.specs.Prelude.{ℕ, ◌≤◌, List, [], ◌∷◌}
use Rattle.rule.specs.Words.{Outcome, accepted, Pair}

unfoldable pub admit_of : ℕ → List ℕ → Bool × List ℕ
admit_of f cells = (true, cells_of f cells)

abbrev cells_of : ℕ → List ℕ
    → List ℕ
cells_of f [] = []
cells_of f (c ∷ cells) =
    accepted c ∷ cells_of f cells

-- The flow may be let in.
pub record Asked (f : ℕ) : Type 0 where
  -- It has a number.
  pub few : f ≤ 63
  pub some : limits.least ≤ f

abbrev limits : Pair
limits = record { least = 1; most = 63 }

pub record Unnamed : Type 0 where
  pub field : Unit
";

const WORDS: &str = "\
pub data Outcome : Type 0 where
  accepted : ℕ → Outcome
  not_known : Outcome

pub record Kept (f : ℕ) : Type 0 where
  pub late : Late f ≡ true
  pub waits : (n : ℕ)
      → n ≤ f

pub record Pair : Type 0 where
  pub least : ℕ
  pub most : ℕ

unfoldable pub Late : ℕ → Bool
Late f = true

unfoldable pub Premise : ℕ → Type 0
Premise zero = Unit
Premise (suc f) = ⊥
";

const LAWS: &str = "\
-- What holds of calls.
pub mod Inner
use Rattle.rule.specs.Words.{Kept, Premise}
use Rattle.rule.proofs.Shared.{Near}
use Rattle.desk.proofs.admit.Reads as reads

-- Each flow is kept.
pub each_kept : (f : ℕ) → Premise f
    → Kept f
unfolding Premise
each_kept f p = go f
  where
    pub go : (f : ℕ) → Kept f
    go f = hidden_law f

hidden_law : (f : ℕ) → Kept f
hidden_law f = refl

abbrev Alike : ℕ → ℕ → Type 0
Alike f g = f ≡ g

module _ (f : ℕ) (p : Premise f) where
  module _ (g : ℕ)
      (e : Alike f g) where
    -- Of two flows.
    pub both_kept : Kept f × Kept g
    both_kept = (each_kept f p, each_kept g p)

  pub one_kept : Kept f
  one_kept = each_kept f p

pub call_kept : (r : _) → reads.Post r → Near 3 r → Kept r
call_kept r p n = p

pub unnamed_law : Unit
unnamed_law = tt

pub ruleset kept_rules = (each_kept, both_kept)
";

const SHARED: &str = "\
module _ (most : ℕ) where
  -- Named in another file.
  abbrev pub Near : ℕ → Type 0
  Near f = f ≤ most

  abbrev pub Far : ℕ → Type 0
  Far f = most < f
";

const CLAIMS: &str = "\
# Claims

- **flows are kept** (`rule`, `desk/specs/Calls`)
  - Definition: `Kept`, `admit_of`, in `host statements`; `(given, cells) ≡ admit_of flow
    cells`
  - Promise or law: `each_kept`, `both_kept`, `one_kept`, `call_kept`
  - Refused edit: `kept_by_nobody`, the edits `kept_..`; prints ` equal` and `FF`
- **`desk::none`, `is_given`**
- **`desk::admit`, `plain`**
";

const STATEMENTS: &str = "
## Contracts

### `desk`

```
pub struct Answer {
    pub given: bool,
}

pub enum Verdict {
    Accepted,
    Refused(u8),
}

impl Answer {
    pub fn none() -> Answer
        ensures { result.given ≡ false }

impl Answer {
    pub fn is_given(&self) -> bool

pub fn admit(
    flow: u8,
    cells: &mut [u32],
) -> Answer
    requires { Asked flow }
    ensures told { (result.given, cells.new)
        ≡ admitted flow cells.old }
    ensures some { flow ≡ 0 + flow }

pub extern \"C\" fn plain(flow: u8) -> u8
```

## Laws

### `desk`: proofs/Laws.antt

```
use Rattle.desk.proofs.admit.Reads as reads

pub each_kept : (f : ℕ) → Premise f
    → Kept f

module _ (f : ℕ) (p : Premise f) where
  module _ (g : ℕ)
      (e : Alike f g) where
    pub both_kept : Kept f × Kept g

  pub one_kept : Kept f

pub call_kept : (r : _) → reads.Post r → Near 3 r → Kept r
```

## Definitions

### `desk`: proofs/Laws.antt

```
abbrev Alike : ℕ → ℕ → Type 0
Alike f g = f ≡ g
```

### `desk`: specs/Calls.antt

```
unfoldable pub admit_of : ℕ → List ℕ → Bool × List ℕ
admit_of f cells = (true, cells_of f cells)

abbrev cells_of : ℕ → List ℕ
    → List ℕ
cells_of f [] = []
cells_of f (c ∷ cells) =
    accepted c ∷ cells_of f cells

pub record Asked (f : ℕ) : Type 0 where
  pub few : f ≤ 63
  pub some : limits.least ≤ f

abbrev limits : Pair
limits = record { least = 1; most = 63 }
```

### `rule`: proofs/Shared.antt

```
module _ (most : ℕ) where
  abbrev pub Near : ℕ → Type 0
  Near f = f ≤ most
```

### `rule`: specs/Words.antt

```
pub data Outcome : Type 0 where
  accepted : ℕ → Outcome
  not_known : Outcome

pub record Kept (f : ℕ) : Type 0 where
  pub late : Late f ≡ true
  pub waits : (n : ℕ)
      → n ≤ f

pub record Pair : Type 0 where
  pub least : ℕ
  pub most : ℕ

unfoldable pub Late : ℕ → Bool
Late f = true

unfoldable pub Premise : ℕ → Type 0
Premise zero = Unit
Premise (suc f) = ⊥
```
";

const CODE_PATH: &str = "crates/desk/src/lib.rt";
const CALLS_PATH: &str = "crates/desk/specs/Calls.antt";
const WORDS_PATH: &str = "crates/rule/specs/Words.antt";
const LAWS_PATH: &str = "crates/desk/proofs/Laws.antt";
const SHARED_PATH: &str = "crates/rule/proofs/Shared.antt";
const EDIT_PATH: &str = "crates/desk/must-fail/kept_by_nobody.edit";
const CLAIMS_PATH: &str = "docs/CLAIMS.md";

const FILES: [(&str, &str); 8] = [
    (
        "crates.txt",
        "# By level: lower first.\nrule:\ndesk staticlib: rule\n",
    ),
    (CODE_PATH, CODE),
    (CALLS_PATH, CALLS),
    (WORDS_PATH, WORDS),
    (LAWS_PATH, LAWS),
    (SHARED_PATH, SHARED),
    (EDIT_PATH, "file: specs/Words.antt\n"),
    (CLAIMS_PATH, CLAIMS),
];

/// A repository of two crates.
struct Small(Folder);

impl Small {
    fn new(name: &str) -> Small {
        let small = Small(Folder::new(&format!("statements_{name}")));
        for (path, text) in FILES {
            let path = small.path(path);
            fs::create_dir_all(path.parent().unwrap()).unwrap();
            fs::write(path, text).unwrap();
        }
        small
    }

    fn path(&self, path: &str) -> PathBuf {
        self.0 .0.join(path)
    }

    /// The page without its head.
    fn statements(&self) -> String {
        let page = statements(&self.0 .0).unwrap();
        page[page.find("\n## ").unwrap()..].to_string()
    }

    fn faults(&self) -> Vec<String> {
        faults_of_claims(&self.0 .0).unwrap()
    }

    /// What `seen` gives while a file has one text in the place of another.
    fn with<T>(&self, path: &str, old: &str, new: &str, seen: impl Fn(&Small) -> T) -> T {
        let path = self.path(path);
        let text = read_text(&path);
        assert_eq!(text.matches(old).count(), 1, "{old}");
        fs::write(&path, text.replacen(old, new, 1)).unwrap();
        let seen = seen(self);
        fs::write(&path, text).unwrap();
        seen
    }
}

#[test]
fn the_statements_of_a_small_repository() {
    let found = Small::new("small").statements();
    let difference = first_difference(&found, STATEMENTS);
    assert!(difference.is_none(), "{}", difference.unwrap());
}

/// Each of these says less, or something else, and takes no proof away that another one needs.
#[test]
fn what_says_less_changes_the_statements() {
    let small = Small::new("less");
    let cases = [
        (CODE_PATH, "\n        ≡ admitted flow cells.old", ""),
        (CODE_PATH, "    ensures some { flow ≡ 0 + flow }\n", ""),
        (CODE_PATH, "Asked flow", "⊥"),
        (CODE_PATH, "        ensures { result.given ≡ false }\n", ""),
        (CODE_PATH, "    pub fn is_given", "    fn is_given"),
        (CODE_PATH, "    flow: u8,\n", ""),
        (CODE_PATH, "    Refused(u8),\n", ""),
        (CODE_PATH, "pub extern", "extern"),
        (CALLS_PATH, "  pub some : limits.least ≤ f\n", ""),
        (CALLS_PATH, "least = 1;", "least = 0;"),
        (CALLS_PATH, "cells_of f [] = []", "cells_of f [] = 0 ∷ []"),
        (WORDS_PATH, "  pub late : Late f ≡ true\n", ""),
        (WORDS_PATH, "      → n ≤ f", "      → n ≤ f + 1"),
        (WORDS_PATH, "Late f = true", "Late f = false"),
        (WORDS_PATH, "Premise zero = Unit\n", ""),
        (WORDS_PATH, "  pub most : ℕ\n", ""),
        (WORDS_PATH, "  not_known : Outcome\n", ""),
        (LAWS_PATH, "    → Kept f\n", "    → Unit\n"),
        (LAWS_PATH, "(f : ℕ) (p : Premise f) where", "(f : ℕ) where"),
        (
            LAWS_PATH,
            "      (e : Alike f g) where",
            "      (e : ⊥) where",
        ),
        (LAWS_PATH, "Alike f g = f ≡ g", "Alike f g = ⊥"),
        (SHARED_PATH, "Near f = f ≤ most", "Near f = ⊥"),
        (
            LAWS_PATH,
            "  pub one_kept : Kept f\n  one_kept = each_kept f p\n",
            "",
        ),
        (LAWS_PATH, "pub call_kept", "call_kept"),
        (
            LAWS_PATH,
            "desk.proofs.admit.Reads",
            "desk.proofs.plain.Reads",
        ),
        (CLAIMS_PATH, ", `one_kept`", ""),
    ];
    for (path, old, new) in cases {
        let found = small.with(path, old, new, Small::statements);
        assert_ne!(found, STATEMENTS, "{path}: {old}");
    }
}

/// Comments, bodies, proofs, what is not public and what nothing names.
#[test]
fn what_is_no_statement_leaves_them() {
    let small = Small::new("same");
    let cases = [
        (CODE_PATH, "// Lets one in.", "// Another comment."),
        (CODE_PATH, "    // Whether it is let in.\n", ""),
        (
            CODE_PATH,
            "    inner(flow)",
            "    let again = flow;\n    inner(again)",
        ),
        (
            CODE_PATH,
            "result.given ≡ true",
            "result.given ≡ result.given",
        ),
        (CODE_PATH, "#[derive(Clone, Copy)]\n", ""),
        (CODE_PATH, "        self.given\n", "        !self.given\n"),
        (CODE_PATH, "#![tactic(auto)]\n", ""),
        (CODE_PATH, "pub(crate) fn hidden_flow(", "fn hidden_now("),
        (CALLS_PATH, "  -- It has a number.\n", ""),
        (CALLS_PATH, "  pub field : Unit", "  pub field : ⊥"),
        (
            LAWS_PATH,
            "each_kept f p = go f",
            "each_kept zero p = go 0\neach_kept f p = go f",
        ),
        (
            LAWS_PATH,
            "    pub go : (f : ℕ) → Kept f",
            "    pub go : Unit",
        ),
        (
            LAWS_PATH,
            "hidden_law : (f : ℕ) → Kept f",
            "hidden_law : Unit",
        ),
        (LAWS_PATH, "unnamed_law : Unit", "unnamed_law : ⊥"),
        (SHARED_PATH, "Far f = most < f", "Far f = ⊥"),
    ];
    for (path, old, new) in cases {
        let found = small.with(path, old, new, Small::statements);
        assert_eq!(found, STATEMENTS, "{path}: {old}");
    }
}

#[test]
fn a_difference_is_told_with_its_line_and_the_command() {
    let small = Small::new("told");
    assert!(difference(&small.0 .0)
        .unwrap_err()
        .contains("STATEMENTS.md"));
    write(&small.0 .0).unwrap();
    assert_eq!(difference(&small.0 .0), Ok(None));
    let told = |small: &Small| difference(&small.0 .0).unwrap().unwrap();
    let told = small.with(WORDS_PATH, "  pub late : Late f ≡ true\n", "", told);
    let page = read_text(&small.path("docs/STATEMENTS.md"));
    let line = page
        .lines()
        .position(|line| line.starts_with("  pub late"))
        .unwrap()
        + 1;
    let expected =
        format!("docs/STATEMENTS.md: line {line}:\nfound:      pub late : Late f ≡ true\n");
    assert!(told.starts_with(&expected), "{told}");
    assert!(told.ends_with("-- statements --write"), "{told}");
}

/// A declaration that is not understood is an error, not a statement that is left out.
#[test]
fn a_declaration_that_is_not_understood_is_told() {
    let small = Small::new("unread");
    let told = |small: &Small| statements(&small.0 .0).unwrap_err();
    let told = small.with(LAWS_PATH, "pub call_kept :", "pub call_kept\n    :", told);
    assert_eq!(
        told,
        "crates/desk/proofs/Laws.antt: no declaration: pub call_kept"
    );
}

/// With what is told of each.
#[test]
fn a_name_that_nothing_has_is_told() {
    let small = Small::new("names");
    assert_eq!(small.faults(), [""; 0]);
    let no_name = "no definition, law, edit, function or crate";
    let no_promise = "no definition, law, function or crate";
    let no_definition = "no definition in specs/, law or crate";
    let cases = [
        ("`each_kept`,", "`each_lost`,", "`each_lost`", no_promise),
        ("`each_kept`,", "`each-kept`,", "`each-kept`", no_promise),
        ("`each_kept`,", "`hidden_law`,", "`hidden_law`", no_promise),
        (
            "`each_kept`,",
            "`each_kept`, `kept_by_nobody`,",
            "`kept_by_nobody`",
            no_promise,
        ),
        (
            "`Kept`",
            "`Lost`",
            "`Lost`",
            "no definition in specs/ and no type",
        ),
        ("`admit_of`", "`lost_of`", "`lost_of`", no_definition),
        (
            "`admit_of`",
            "`hidden_flow`",
            "`hidden_flow`",
            no_definition,
        ),
        (
            "≡ admit_of flow",
            "≡ lost_of flow",
            "`(given, cells) ≡ lost_of flow cells`",
            "an expression with a name of no definition, law or type",
        ),
        (
            "≡ admit_of flow",
            "≡ hidden_flow flow",
            "`(given, cells) ≡ hidden_flow flow cells`",
            "an expression with a name of no definition, law or type",
        ),
        (
            "`kept_by_nobody`",
            "`kept_by_all`",
            "`kept_by_all`",
            no_name,
        ),
        ("`kept_..`", "`lost_..`", "`lost_..`", "no edit begins so"),
        (
            "`host statements`",
            "`host lost`",
            "`host lost`",
            "no command of host",
        ),
        ("`rule`", "`lost`", "`lost`", "nothing has this name"),
        (
            "`desk/specs/Calls`",
            "`desk/specs/Lost`",
            "`desk/specs/Lost`",
            "no file or folder",
        ),
        (
            "`plain`",
            "`plain`, `desk::inner`",
            "`desk::inner`",
            "no public function of that crate",
        ),
    ];
    for (old, new, name, told) in cases {
        let faults = small.with(CLAIMS_PATH, old, new, Small::faults);
        assert_eq!(faults, [format!("docs/CLAIMS.md: {name}: {told}")]);
    }
    for name in [
        "not_known",
        "desk",
        "inner",
        "hidden_flow",
        "Answer",
        "Refused",
        "given",
        "waits",
        "ensures",
        "random",
    ] {
        let named = format!("`{name}`, `plain`");
        let faults = small.with(CLAIMS_PATH, "`plain`", &named, Small::faults);
        assert_eq!(faults, [""; 0], "{name}");
    }
}

/// A law that is gone, not public any more, or in another place than proofs/; and an edit that is gone.
#[test]
fn what_is_gone_is_told() {
    let small = Small::new("gone");
    let expected = ["docs/CLAIMS.md: `one_kept`: no definition, law, function or crate"];
    for new in [
        "",
        "  one_kept : Kept f\n",
        "  pub other_kept : Kept f\n",
        "  abbrev pub one_kept : Type 0\n",
    ] {
        let faults = small.with(LAWS_PATH, "  pub one_kept : Kept f\n", new, Small::faults);
        assert_eq!(faults, expected, "{new}");
    }
    fs::remove_file(small.path(EDIT_PATH)).unwrap();
    assert_eq!(small.faults().len(), 2);
}

/// A name that another function or a definition has too counts only behind its crate or behind another function of the crate.
#[test]
fn a_function_without_a_row_is_told() {
    let small = Small::new("rows");
    let of = |name: &str| format!("docs/CLAIMS.md: no row names desk::{name}");
    let rows = "- **`desk::admit`, `plain`**\n";
    let cases: [(&str, &[&str]); 7] = [
        ("", &["admit", "plain"]),
        ("- `admit`, `desk::plain`\n", &[]),
        ("- `plain`\n- `admit`\n", &[]),
        ("- desk::admit and `plain`\n", &["admit"]),
        ("- `desk::admit`, a list\n  with `plain`\n", &[]),
        ("- `desk::admit`\n", &["plain"]),
        ("- the plain `desk`\n", &["admit", "plain"]),
    ];
    for (new, unnamed) in cases {
        let faults = small.with(CLAIMS_PATH, rows, new, Small::faults);
        let expected: Vec<String> = unnamed.iter().map(|name| of(name)).collect();
        assert_eq!(faults, expected, "{new}");
    }
    let with_definition = |small: &Small| {
        let rows_of = |new| small.with(CLAIMS_PATH, rows, new, Small::faults);
        let alone = rows_of("- `plain`\n- `desk::admit`\n");
        (alone, rows_of("- `desk::admit`, `plain`\n"))
    };
    let added = "abbrev pub plain : ℕ\nplain = 0\n\nunfoldable pub Late :";
    let found = small.with(WORDS_PATH, "unfoldable pub Late :", added, with_definition);
    assert_eq!(found, (vec![of("plain")], vec![]));
}

#[test]
fn a_backquote_without_another_is_told() {
    let small = Small::new("backquote");
    let told = |small: &Small| statements(&small.0 .0).unwrap_err();
    let told = small.with(CLAIMS_PATH, "`one_kept`", "`one_kept", told);
    assert!(
        told.starts_with("docs/CLAIMS.md: a backquote without another: - Promise or law: "),
        "{told}"
    );
}
