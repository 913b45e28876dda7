"""The scratch repository in which statements are proved, and the proving.

It holds copies of the crates laws, dimension and rules, and a crate `held` of
statements: each says that a list of computed answers is the list of wanted
ones, and its proof is `refl`, so it holds just where they compute to the same.
"""
import itertools
import os
import re
import shutil
import subprocess
from dataclasses import dataclass

from oracle.ask import ROOT

COPIED = ("laws", "dimension", "rules")
CRATE = "held"
# A message goes on over the indented lines.
FAILED = re.compile(r"^.*/proofs/(\w+)\.antt:\d+:\d+: error: `(held[\d-]*)`: (.*(?:\n  .*)*)", re.M)
# The last that is said of the statements, where all are proved.
PROVED = re.compile(rf"^crate {CRATE}: .*\nlogic=proved ", re.M)
MISMATCH = "expected type"
# The prover gives a statement so many steps and no more.
TOO_LONG = "stopped at the step limit"
# Two modules whose names stand everywhere; others are called crate-Module.
SHORT = {"dimension-Fraction": "F", "dimension-Dimension": "D"}
UNFOLDABLE = re.compile(r"^ *unfoldable pub (\S+) :", re.M)


@dataclass
class Case:
    asked: str
    wanted: str
    about: str


@dataclass
class Sheet:
    """Cases over common definitions: one module, one statement."""
    name: str
    given: str
    cases: list


class Broken(Exception):
    """The tool failed, or a statement is no statement."""


# ---- What every module begins with.

USED = """use Rattle.std.specs.Prelude.{ℕ, zero, suc, ◌≡◌, Bool, true, false, List, [], ◌∷◌, ◌++◌, map, length, get_or, ℤ, pos, neg_ℤ}
use mathlib.Core.Path.{refl}
use mathlib.Core.List.{zip_with}
use Rattle.std.specs.declared.option.Option.{Option}
use Rattle.std.specs.declared.option.Option.TheVariants.{None, Some}
use Rattle.laws.specs.Out.{Out, given, refused}
use Rattle.laws.specs.Options.{found}
use Rattle.dimension.specs.declared.rational.Rational.{Rational}
use Rattle.dimension.specs.declared.dimensions.Dimensions.{Dimensions}
use Rattle.dimension.specs.declared.grade.ProductOp.{ProductOp}
use Rattle.dimension.specs.declared.grade.ProductOp.TheVariants.{Mul, Div, Dot, Wedge}
use Rattle.rules.specs.Kinds.{Kinds, Rows}
use Rattle.rules.specs.Refusal.{Answer, Placed, Told, told}
use Rattle.rules.specs.Catalog.{Catalog, Id, Row}
use Rattle.rules.specs.Compile.{Compiled}
use Rattle.rules.specs.Formula.{Term, Meaning, Ended}
use Rattle.rules.specs.Lookup.{Exponent, exact, inexact}
"""

# The words that the statements are written with.
SAID = """
-- n / d, −n / d, and an absent base's exponent
abbrev pub u : ℕ → ℕ → Rational
u n d = F.ratio (pos n) d

abbrev pub m : ℕ → ℕ → Rational
m n d = F.ratio (neg_ℤ (pos n)) d

abbrev pub o : Rational
o = F.ratio (pos 0) 1

-- what a product has no single grade for
abbrev pub no_grade : Option ℕ
no_grade = None

-- n zeros before what follows
abbrev pub zeros : ℕ → List ℕ → List ℕ
zeros zero l = l
zeros (suc n) l = 0 ∷ zeros n l

-- the n numbers from i on
abbrev pub up_from : ℕ → ℕ → List ℕ
up_from i zero = []
up_from i (suc n) = i ∷ up_from (suc i) n

-- ---- what a compiled kind is, and kinds from a list of them
pub record One : Type 0 where
  pub dims : Option Dimensions
  pub grade : ℕ
  pub difference : Option ℕ
  pub rate_of : Option ℕ
  pub rate : Option ℕ

abbrev pub one : Option Dimensions → ℕ → Option ℕ → Option ℕ → Option ℕ → One
one x g d t r = record { dims = x; grade = g; difference = d; rate_of = t; rate = r }

abbrev pub nobody : One
nobody = one None 0 None None None

abbrev pub these : List One → Option ℕ → Option ℕ → Kinds
these l o t = record {
  count = length l;
  dims = λ k. (get_or l k nobody).dims;
  grade = λ k. (get_or l k nobody).grade;
  difference = λ k. (get_or l k nobody).difference;
  rate_of = λ k. (get_or l k nobody).rate_of;
  rate = λ k. (get_or l k nobody).rate;
  dimensionless = o;
  time = t;
}

-- and back
abbrev pub seen : Kinds → List One
seen K = laws-Ranges.tab (λ k. one (K.dims k) (K.grade k) (K.difference k) (K.rate_of k) (K.rate k)) K.count

-- ---- rows in force
pub record Entry : Type 0 where
  pub left : ℕ
  pub op : ProductOp
  pub right : ℕ
  pub result : ℕ

abbrev pub entry : ℕ → ProductOp → ℕ → ℕ → Entry
entry l op r k = record { left = l; op = op; right = r; result = k }

abbrev pub words : List Entry → List ℕ
words [] = []
words (e ∷ l) = rules-Table.row_words e.left e.op e.right e.result ++ words l

-- ---- what was said: a kind, a number, a refusal with its place and all that it returns, a compilation
pub data Said : Type 0 where
  kind : ℕ → Said
  number : Said
  refuses : ℕ → Told → Said
  compiled : List One → Option ℕ → Option ℕ → List ℕ → List (Option ℕ) → Said

abbrev pub plainly : ℕ → ℕ → List ℕ → Said
plainly p n vs = refuses p (record { number = n; dims = None; values = vs; twins = [] })

abbrev pub with_dims : ℕ → ℕ → List Rational → ℕ → Said
with_dims p n d g = refuses p (record { number = n; dims = Some (D.dimensions d); values = g ∷ []; twins = [] })

abbrev pub with_twins : ℕ → ℕ → ℕ → List ℕ → Said
with_twins p n count ks = refuses p (record { number = n; dims = None; values = count ∷ []; twins = ks })

-- a product, sum or power by itself has no place: 0 stands for it
abbrev pub said : Answer ℕ → Said
said (given k) = kind k
said (refused x) = refuses 0 (told x)

abbrev pub alone : Placed ℕ → Said
alone (given k) = kind k
alone (refused x) = refuses x.place (told x.refusal)

abbrev pub placed : Placed Term → Said
placed (given rules-Formula.Number) = number
placed (given (rules-Formula.Kind k)) = kind k
placed (refused x) = refuses x.place (told x.refusal)

-- ---- lookups; no answer is `number`
abbrev pub looked : Kinds → Rows → ℕ → ℕ → ℕ → Said
looked K rows code l r = found (rules-Arithmetic.op_by code) (λ op. said (rules-Arithmetic.combine K rows op l r)) number

abbrev pub exactly : Kinds → ℕ → Rational → Said
exactly K k e = said (rules-Arithmetic.power K 8 k (Some e))

abbrev pub inexactly : Kinds → ℕ → Said
inexactly K k = said (rules-Arithmetic.power K 9 k None)

-- over lent words: what is said, and the twin list after it
abbrev pub lent : Placed ℕ → List ℕ → Said × List ℕ
lent a twins = (alone a, rules-Refusal.twins_after a twins)

abbrev pub called : Placed Term → List ℕ → Said × List ℕ
called a twins = (placed a, rules-Refusal.twins_after a twins)

-- ---- catalogs
abbrev pub declares : Id → Id → Id → Option Dimensions → ℕ → rules-Catalog.Kind
declares a d t x g = record { id = a; difference = d; rate_of = t; dims = x; grade = g }

abbrev pub rules : Id → Id → Id → ProductOp → Bool → Row
rules l r k op c = record { left = l; right = r; result = k; op = op; commutative = c }

abbrev pub declared : List rules-Catalog.Kind → Id → Id → List Row → Catalog
declared ks o t rs = record {
  kind_count = length ks;
  kind = λ k. get_or ks k rules-Catalog.absent_kind;
  dimensionless = o;
  time = t;
  row_count = length rs;
  row = λ i. get_or rs i (rules [] [] [] Mul false);
}

-- what a compilation gives, with the rows in force and what its rows say of some left, operation and right
abbrev pub compiled_to : Catalog → List Entry → Placed Compiled → Said
compiled_to C asked (given X) = compiled (seen X.kinds) X.kinds.dimensionless X.kinds.time (rules-Table.in_force C) (map (λ (e : Entry). X.rows e.left e.op e.right) asked)
compiled_to C asked (refused x) = refuses x.place (told x.refusal)

abbrev pub compile : Catalog → List Entry → Said
compile C asked = compiled_to C asked (rules-Compile.compile C)

abbrev pub compile_image : List ℕ → ℕ → List Entry → Said
compile_image s room asked = compiled_to (rules-Catalog.catalog_in s) asked (rules-Image.compile_image s room)

-- ---- calculation from leaves: a number; dimensions, where there are any, and grade
pub data Calculated : Type 0 where
  plain : Calculated
  of : Option Dimensions → ℕ → Calculated
  none_of_it : Calculated

abbrev pub calculated : Ended (Unit {0}) Meaning → Calculated
calculated (rules-Formula.answered rules-Formula.plain) = plain
calculated (rules-Formula.answered (rules-Formula.of d g)) = of d g
calculated (rules-Formula.stopped p x) = none_of_it
calculated (rules-Formula.malformed p) = none_of_it
"""
SAID_NAMES = re.findall(r"^(?:abbrev pub|pub record|pub data) (\S+) :", SAID, re.M)
SAID_CASES = ["kind", "number", "refuses", "compiled", "plain", "of", "none_of_it"]


def spec_files(crate):
    """The modules of a crate's specs, by name; Lib lists the others."""
    folder = os.path.join(ROOT, "crates", crate, "specs")
    names = sorted(name[:-5] for name in os.listdir(folder) if name.endswith(".antt"))
    return [(name, os.path.join(folder, name + ".antt")) for name in names if name != "Lib"]


def modules_and_unfoldable():
    """Lines that bring every module of the rules in, and the names of every
    definition that computes only where it is unfolded."""
    lines, names = [], ["zip_with"]
    for crate in COPIED:
        for name, path in spec_files(crate):
            with open(path, encoding="utf-8") as file:
                found = UNFOLDABLE.findall(file.read())
            called = SHORT.get(f"{crate}-{name}", f"{crate}-{name}")
            lines.append(f"use Rattle.{crate}.specs.{name} as {called}\n")
            names += [f"{called}.{definition}" for definition in found]
    return "".join(lines), " ".join(names)


# ---- The repository.

class Scratch:
    def __init__(self, folder):
        self.folder = folder
        self.crate = os.path.join(folder, "crates", CRATE)
        self.proofs = os.path.join(self.crate, "proofs")
        self.modules, self.unfolding = modules_and_unfoldable()
        self.made()

    def made(self):
        """Copies are made anew, so that the rules are those of now; what rt
        keeps beside them stays, so that equal files are not proved again."""
        for crate, part in itertools.product(COPIED, ("src", "specs", "proofs")):
            source, target = (os.path.join(root, "crates", crate, part) for root in (ROOT, self.folder))
            shutil.rmtree(target, ignore_errors=True)
            if os.path.isdir(source):
                shutil.copytree(source, target)
        source = os.path.join(self.crate, "src")
        os.makedirs(source, exist_ok=True)
        written(os.path.join(source, "lib.rt"), "// No functions: proofs/ has the statements.\n#![tactic(auto)]\n")
        written(os.path.join(self.folder, "crates.txt"),
                "laws:\ndimension: laws\nrules: laws dimension\nheld: laws dimension rules\n")

    def module(self, sheet, single):
        """A sheet's module; `single`: a statement for each case."""
        names = " ".join(f"{name}," for name in SAID_NAMES + SAID_CASES).rstrip(",")
        head = USED + self.modules + f"use Rattle.held.proofs.Said.{{{names}}}\n\n{sheet.given}\n"
        parts = [[case] for case in sheet.cases] if single else [sheet.cases]
        return head + "".join(self.statement(f"held-{place}" if single else "held", part)
                              for place, part in enumerate(parts))

    def statement(self, name, cases):
        asked = "\n    ∷ ".join(case.asked for case in cases)
        wanted = "\n    ∷ ".join(case.wanted for case in cases)
        return (f"{name} : ({asked}\n    ∷ []) ≡\n    ({wanted}\n    ∷ [])\n"
                f"unfolding {self.unfolding}\n{name} = refl\n\n")

    def write(self, sheets, single):
        shutil.rmtree(self.proofs, ignore_errors=True)
        os.makedirs(self.proofs)
        written(os.path.join(self.proofs, "Said.antt"), USED + self.modules + SAID)
        for sheet in sheets:
            written(os.path.join(self.proofs, sheet.name + ".antt"), self.module(sheet, single))
        names = ["Said"] + [sheet.name for sheet in sheets]
        written(os.path.join(self.proofs, "Lib.antt"), "".join(f"mod {name}\n" for name in names))

    def refused(self, sheets, single=False):
        """Which statements are refused, (sheet, statement) with the message;
        none means that the prover has proved them all."""
        self.write(sheets, single)
        result = subprocess.run(["rt", "check", "--jobs", "1"], cwd=self.crate, capture_output=True,
                                text=True, check=False)
        output = result.stdout + result.stderr
        if result.returncode == 0 and PROVED.search(output):
            return {}
        failed = {(sheet, name): message for sheet, name, message in FAILED.findall(output)}
        if result.returncode not in (1, 3) or not failed:
            raise Broken(output)
        for message in failed.values():
            if MISMATCH not in message and TOO_LONG not in message:
                raise Broken(output)
        return failed


def written(path, text):
    with open(path, "w", encoding="utf-8") as file:
        file.write(text)
