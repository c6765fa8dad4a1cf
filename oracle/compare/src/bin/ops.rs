//! `ops REPOSITORY FOLDER [--wrong sign|order|cursor]`: writes a Rattle crate
//! that holds the definition in crate `construct` to the Rust's circuits. It has
//! the definition's files, the ops and output forms of trees of the vector file
//! as tables, and theorems by computation that the definition gives the same.
//! With `--wrong` it has only the first tree with ops and a cursor, and one
//! thing is put wrong: a coefficient's sign, the order of two ops, or a next
//! cursor's bias; then its theorem must be refused. Exit 1 if the trees are too
//! few, lack a kind or have a form that is not of whole numbers; 2 for files
//! that cannot be had.

use std::ffi::OsString;
use std::fs;
use std::io;
use std::path::Path;
use std::process::ExitCode;

use behavior_machines_circuit::{Affine, Op};
use compare::agree::Difference;
use compare::circuit::{EXACT_LIMIT, lower};
use compare::measure::forms;
use reading::kind::{Family, TABLE};
use reading::vectors::{Verdict, read_cases};
use reading::{Tree, read};

/// No tree has more nodes: the prover's computing has a limit of steps.
const NODE_LIMIT: usize = 64;

/// Fewer trees would not do.
const TREES_DUE: usize = 50;

/// Rows of one theorem at most.
const ROWS_A_FILE: usize = 16;

/// The files of the definition, each with its crate. They are copied, so that
/// the laws beside them need not be proved before the definition is computed.
const DEFINITION: [(&str, &str); 6] = [
    ("walk", "Kind"),
    ("construct", "Forms"),
    ("construct", "Builder"),
    ("construct", "Lower"),
    ("construct", "Circuit"),
    ("construct", "Pairs"),
];

/// What those files call each other by, across crates and within one.
const OLD_PATHS: [&str; 2] = ["Rattle.walk.specs.", "Rattle.construct.specs."];

/// What the written crate's files call each other by.
const NEW_PATH: &str = "Rattle.construction.specs.";

/// What the crate's source says.
const LIB_RT: &str = "// Written by the oracle's program `ops`: theorems only, see specs/.\n#![tactic(auto)]\n";

/// What a row is, and the row that the definition gives for a row's tree.
const ROW: &str = "\
-- A tree, and the numbers of its circuit's forms. Written by the oracle's program `ops`, as is the whole crate.
use Rattle.std.specs.Prelude.{ℕ, ◌-◌, List, [], ◌∷◌, map}
use Rattle.construction.specs.Kind.{kind_of}
use Rattle.construction.specs.Builder as B
use Rattle.construction.specs.Lower as L
use Rattle.construction.specs.Circuit.{flats, slot_end, cell_end, inputs, build, construct, op_forms, output_forms}
use Rattle.construction.specs.Pairs as P
use Rattle.construction.specs.Pairs.{pairs}

-- kinds and child counts in pre-order; input cells; left and gate of every op; success, failure, running, reached, halted and next running of
-- every node; next cursor of every cell
pub record Row : Type 0 where
  pub kinds : List ℕ
  pub counts : List ℕ
  pub cells : ℕ
  pub ops : List (List ℕ)
  pub outputs : List (List ℕ)
  pub cursors : List (List ℕ)

-- a whole number as two naturals of which one is 0: p - n and n - p
unfoldable pub term_numbers : List P.Term → List ℕ
term_numbers [] = []
term_numbers (t ∷ ts) = t.wire ∷ (t.cp - t.cn) ∷ (t.cn - t.cp) ∷ term_numbers ts

-- the bias, then each term's wire and coefficient
unfoldable pub numbers : P.Form → List ℕ
numbers f = (f.bp - f.bn) ∷ (f.bn - f.bp) ∷ term_numbers f.terms

unfoldable pub constructed : Row → Row
unfolding kind_of slot_end cell_end construct build op_forms output_forms B.not' B.minus B.push B.relu B.is_zero_at B.is_zero B.step B.at_least_at B.at_least B.and_at B.and B.or_at B.or L.inverted L.inverteds L.forced L.fixed_t L.gates L.clears L.stops L.picks L.total L.lower_seq L.lower L.up_step L.up L.spread L.children L.next_cur L.down L.flags P.keep P.insert_at P.insert P.merge P.flip P.times P.constant P.wire' P.offset P.negate P.plus P.scaled P.empty P.known_at P.known term_numbers numbers
constructed r =
    let ns = flats r.kinds r.counts in
    let x = construct pairs ns in
    record { kinds = r.kinds; counts = r.counts; cells = inputs ns; ops = map numbers (op_forms x.ops); outputs = map numbers (output_forms x.outputs); cursors = map numbers x.cursors }
";

/// The head of a file of rows.
const ROWS_HEAD: &str = "\
-- Trees of the stored cases with the Rust's circuits.
use Rattle.std.specs.Prelude.{◌≡◌, refl, List, [], ◌∷◌, map}
use Rattle.construction.specs.Row.{Row, constructed}

abbrev pub rows : List Row
rows =
";

/// The theorem of a file of rows.
const ROWS_FOOT: &str = "
pub rows_hold : map constructed rows ≡ rows
unfolding constructed
rows_hold = refl
";

/// A whole number, or a wire, as the table has it.
type Number = u32;

/// What can be put wrong.
#[derive(Clone, Copy)]
enum Slip {
    Sign,
    Order,
    Cursor,
}

/// A tree with its circuit's forms in numbers.
#[derive(Clone, PartialEq)]
struct Row {
    kinds: Vec<Number>,
    counts: Vec<Number>,
    cells: Number,
    ops: Vec<Vec<Number>>,
    outputs: Vec<Vec<Number>>,
    cursors: Vec<Vec<Number>>,
}

fn main() -> ExitCode {
    let arguments: Vec<OsString> = std::env::args_os().skip(1).collect();
    let Some((repository, folder, slip)) = options(&arguments) else {
        eprintln!("usage: ops REPOSITORY FOLDER [--wrong sign|order|cursor]");
        return ExitCode::from(2);
    };
    let trees = match trees(&repository.join("vectors/vectors.txt")) {
        Ok(trees) => trees,
        Err(text) => {
            eprintln!("ops: {text}");
            return ExitCode::from(2);
        }
    };
    let rows = match rows(&trees, slip) {
        Ok(rows) => rows,
        Err(Difference(text)) => {
            println!("ops: {text}");
            return ExitCode::FAILURE;
        }
    };
    let written = copy_definition(&repository.join("crates"), &folder.join("specs"))
        .and_then(|()| write_theorems(folder, &rows));
    if let Err(error) = written {
        eprintln!("ops: {}: {error}", folder.display());
        return ExitCode::from(2);
    }
    let total = |forms: fn(&Row) -> usize| rows.iter().map(forms).sum::<usize>();
    println!(
        "{} trees, {} ops, {} forms",
        rows.len(),
        total(|row| row.ops.len() / 2),
        total(|row| row.ops.len() + row.outputs.len() + row.cursors.len())
    );
    ExitCode::SUCCESS
}

fn options(arguments: &[OsString]) -> Option<(&Path, &Path, Option<Slip>)> {
    let (repository, folder, slip) = match arguments {
        [repository, folder] => (repository, folder, None),
        [repository, folder, option, name] if option == "--wrong" => {
            let slip = match name.to_str()? {
                "sign" => Slip::Sign,
                "order" => Slip::Order,
                "cursor" => Slip::Cursor,
                _ => return None,
            };
            (repository, folder, Some(slip))
        }
        _ => return None,
    };
    Some((Path::new(repository), Path::new(folder), slip))
}

/// The trees of a vector file, each once, in the file's order.
fn trees(path: &Path) -> Result<Vec<Tree>, String> {
    let at = |what: String| format!("{}: {what}", path.display());
    let text = fs::read(path).map_err(|error| at(error.to_string()))?;
    let cases = read_cases(&text).map_err(|bad| at(format!("line {}: {}", bad.line, bad.what)))?;
    let mut trees: Vec<Tree> = Vec::new();
    for case in cases {
        if matches!(case.verdict, Verdict::Accepted(_))
            && let Ok(tree) = read(&case.bytes)
            && tree.nodes() <= NODE_LIMIT
            && !trees.contains(&tree)
        {
            trees.push(tree);
        }
    }
    Ok(trees)
}

/// The table.
fn rows(trees: &[Tree], slip: Option<Slip>) -> Result<Vec<Row>, Difference> {
    let rows = trees.iter().map(Row::of).collect::<Result<Vec<_>, _>>()?;
    if rows.len() < TREES_DUE {
        return Err(Difference(format!("only {} trees", rows.len())));
    }
    for kind in TABLE.iter().map(|row| row.kind) {
        let number = Number::from(kind.number());
        let due = kind.family() != Family::NeverLowered;
        if due && !rows.iter().any(|row| row.kinds.contains(&number)) {
            return Err(Difference(format!("no tree has kind {number}")));
        }
    }
    let Some(slip) = slip else {
        return Ok(rows);
    };
    let full = |row: &&Row| !row.ops.is_empty() && !row.cursors.is_empty();
    let wrong = rows.iter().find(full).map(|row| (row, row.with(slip)));
    match wrong {
        Some((row, wrong)) if *row != wrong => Ok(vec![wrong]),
        _ => Err(Difference("nothing to put wrong".to_string())),
    }
}

impl Row {
    fn of(tree: &Tree) -> Result<Self, Difference> {
        let lowered = lower(tree).map_err(|error| Difference(error.to_string()))?;
        let circuit = lowered.circuit();
        if circuit.ops().iter().any(|op| matches!(op, Op::Affine(_))) {
            return Err(Difference("an op that is a form".to_string()));
        }
        let forms = forms(&lowered);
        let mut ops = forms.iter().map(numbers).collect::<Result<Vec<_>, _>>()?;
        let mut outputs = ops.split_off(2 * circuit.ops().len());
        let cursors = outputs.split_off(6 * lowered.plan().node_count());
        let records = tree.records();
        Ok(Self {
            kinds: records
                .iter()
                .map(|node| node.kind.number().into())
                .collect(),
            counts: records.iter().map(|node| node.children.into()).collect(),
            cells: circuit.inputs(),
            ops,
            outputs,
            cursors,
        })
    }

    /// The row with a slip: in the last coefficient of the last op, in the order
    /// of the last two ops, or in the bias of the last cursor.
    fn with(&self, slip: Slip) -> Self {
        let mut row = self.clone();
        match slip {
            Slip::Sign => {
                if let Some([.., positive, negative]) = row.ops.last_mut().map(Vec::as_mut_slice) {
                    std::mem::swap(positive, negative);
                }
            }
            Slip::Order => {
                let tail = row.ops.len().saturating_sub(4);
                row.ops[tail..].rotate_left(2);
            }
            Slip::Cursor => {
                if let Some([bias, ..]) = row.cursors.last_mut().map(Vec::as_mut_slice) {
                    *bias += 1;
                }
            }
        }
        row
    }

    fn text(&self) -> String {
        format!(
            "record {{
      kinds = {};
      counts = {};
      cells = {};
      ops = {};
      outputs = {};
      cursors = {};
    }}
    ∷ ",
            list(&self.kinds),
            list(&self.counts),
            self.cells,
            lists(&self.ops),
            lists(&self.outputs),
            lists(&self.cursors)
        )
    }
}

/// The bias, then each term's wire and coefficient.
fn numbers(form: &Affine) -> Result<Vec<Number>, Difference> {
    let mut numbers = parts(form.bias())?.to_vec();
    for (wire, coefficient) in form.terms() {
        let wire = Number::try_from(wire.position())
            .map_err(|_| Difference(format!("wire {}", wire.position())))?;
        numbers.push(wire);
        numbers.extend(parts(*coefficient)?);
    }
    Ok(numbers)
}

/// A whole number as two naturals, of which one is 0; zeros of either sign are
/// the same.
fn parts(value: f32) -> Result<[Number; 2], Difference> {
    if value.fract() != 0.0 || value.abs() >= EXACT_LIMIT {
        return Err(Difference(format!("a form has the number {value}")));
    }
    Ok([value.max(0.0) as Number, (-value).max(0.0) as Number])
}

fn list(numbers: &[Number]) -> String {
    let mut text = String::new();
    for number in numbers {
        text += &format!("{number} ∷ ");
    }
    text + "[]"
}

fn lists(forms: &[Vec<Number>]) -> String {
    let mut text = String::new();
    for form in forms {
        text += &format!("({}) ∷ ", list(form));
    }
    text + "[]"
}

/// Copies the definition's files, word for word but for their crates' names.
fn copy_definition(crates: &Path, specs: &Path) -> io::Result<()> {
    fs::create_dir_all(specs)?;
    for (home, module) in DEFINITION {
        let file = format!("{module}.antt");
        let mut text = fs::read_to_string(crates.join(home).join("specs").join(&file))?;
        for path in OLD_PATHS {
            text = text.replace(path, NEW_PATH);
        }
        fs::write(specs.join(&file), text)?;
    }
    Ok(())
}

/// Writes what else the crate has.
fn write_theorems(folder: &Path, rows: &[Row]) -> io::Result<()> {
    let (source, specs) = (folder.join("src"), folder.join("specs"));
    fs::create_dir_all(&source)?;
    fs::write(source.join("lib.rt"), LIB_RT)?;
    fs::write(specs.join("Row.antt"), ROW)?;
    let mut modules: Vec<String> = DEFINITION.map(|(_, module)| module.to_string()).to_vec();
    modules.push("Row".to_string());
    for (place, rows) in rows.chunks(ROWS_A_FILE).enumerate() {
        let table: String = rows.iter().map(Row::text).collect();
        let text = format!("{ROWS_HEAD}    {table}[]\n{ROWS_FOOT}");
        let module = format!("Rows{place}");
        fs::write(specs.join(format!("{module}.antt")), text)?;
        modules.push(module);
    }
    let mut lib = String::from("-- The construction's circuits are the Rust's.\n");
    for module in modules {
        lib += &format!("pub mod {module}\n");
    }
    fs::write(specs.join("Lib.antt"), lib)
}
