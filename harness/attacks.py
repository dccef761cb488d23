#!/usr/bin/env python3
"""Runs each must-fail edit of code beside the program as it is, on an input where the
two must answer differently: an edit that no input tells from the program proves nothing.

The library's language is close to Rust: with the contracts taken off, the sources are
compiled by rustc, in a scratch folder. One build has all of it: a function that is edited
stands there once as it is and once for each change, and a number chosen at the start says
which of them is called. That proves nothing; it shows what an impostor would answer. A sum
that runs over or a byte past the end of a slice stops the edited program, and that counts
as an answer. Two answers are the same where the number and the WHOLE lent buffer are, each
byte of it, and every lent buffer begins with other bytes in each place.

    python3 harness/attacks.py               all of them
    python3 harness/attacks.py merge/ day/   those whose name begins so

Prints each one's answers and how many are as they should be; the exit status is 0 only if
all are: every change of code has an input in attack_inputs.py that tells it from the program,
and what means the same as the code answers the same.
"""

import pathlib
import re
import subprocess
import sys
import tempfile

import edits
from attack_inputs import INPUTS

# ---- the program that is run: how each call is made, and in which crate it stands

WRITTEN = "written({}, &out)"
FIGURE = "told({}, |z| z.to_string())"
TAKEN = 'told({}, |()| "taken".to_string())'
RUN_AND_Y = "&input[..number], y(&input[number..])"
MODE_AND_PAGE = "&input, (number % 8) as u32, (number / 8) as u32"
TWO_NUMBERS = "&input, (number >> 32) as u32, number as u32"
# A station's state, which begins the input, what is sent behind it, and the farm's number. What is written of it is told after the answer.
SENT = "&mut state, number as u32, &input[STATE..]"
OF_FARM = "&mut state, number as u32, &mut out"
WITH_STATE = """{{
            let mut state: [u8; STATE] = input[..STATE].try_into().unwrap();
            let told = {};
            format!("{{told}}; {{}}", moved(&input[..STATE], &state))
        }}"""
ARMS = {
    "record::read_first": """match record::read_first(&input) {
            Some(f) => format!("{} {} {} {} {} {} {}", f.kind as u16, f.length, f.depth, f.value, f.floor, f.ceiling, f.batch),
            None => "refused".to_string(),
        }""",
    "summarise::summarise": WRITTEN.format("summarise::summarise(&input, number as u32, &mut out)"),
    "merge::merge": WRITTEN.format("merge::merge(&input[..number], &input[number..], &mut out)"),
    "merge_row::merge_row": WRITTEN.format("merge_row::merge_row(&input, &mut out)"),
    "finish::finish": FIGURE.format("finish::finish(&input)"),
    "plan::plan": WRITTEN.format("plan::plan(&input, &mut out)"),
    "runs::runs": WRITTEN.format("runs::runs(&input, &mut out)"),
    "work::work": 'told(work::work(&input), |t| format!("{} {} {}", t.figure, t.joins, t.levels))',
    "row_gate::open_row": """{
            let mut notes = [None; 64];
            let found = told(row_gate::open_row(&input, &mut notes), |row| format!("{} pieces", row.count));
            format!("{found}; the last note {:?}", notes[63])
        }""",
    "run_level::place_of": """{
            let (mut notes, mut ats) = ([None; 64], [0; 64]);
            let found = row_gate::open_row(&input, &mut notes).ok().unwrap();
            run_level::begin_pieces(&input, found.count, &mut ats);
            let hills = run_level::hills::Hills { row: &input, count: found.count, mode: found.mode, ats: &ats, notes: &notes };
            format!("{:?}", run_level::hills::place_of(hills, number))
        }""",
    "whole_log::ask": 'told(whole_log::ask(&input), |n| format!("{n} opened"))',
    "table::write_log": WRITTEN.format("table::write_log(&input, &mut out)"),
    "table::read_table": WRITTEN.format("table::read_table(&input, &mut out)"),
    "small_days::small_days": WRITTEN.format("small_days::small_days(number as u32, &mut out)"),
    "heaviest_line::heaviest_line": WRITTEN.format("heaviest_line::heaviest_line(&input, &mut out)"),
    "sheet::sheet": WRITTEN.format(f"sheet::sheet({MODE_AND_PAGE}, &mut out)"),
    "common::common": f'told(common::common({TWO_NUMBERS}), |n| format!("record {{n}}"))',
    "farms::fresh": WITH_STATE.format(TAKEN.format("farms::fresh(number as u32, &mut state)")),
    "farms::send": WITH_STATE.format(TAKEN.format(f"farms::send({SENT})")),
    "farms::end_of_day": WITH_STATE.format(WRITTEN.format(f"farms::end_of_day({OF_FARM})")),
    "backwards::backwards": FIGURE.format(f"backwards::backwards({RUN_AND_Y})"),
    "day::figures": 'told(day::figures(&input), |f| format!("{} {} {} {}", f.net, f.heaviest, f.eaten, f.stamp))',
    "day_line::text": """{
            let mut line = [0_u8; 128];
            line.copy_from_slice(&lent(128));
            let n = day_line::text(&input, &mut line);
            format!("{n} {:?}; {}", String::from_utf8_lossy(&line[..n.min(128)]), after(&line))
        }""",
}
# The C functions: those that write bytes, and those that store numbers, with how many; each with what it is given.
LENGTHS = {"summarise": "&input, number as u32", "merge": "&input[..number], &input[number..]",
           "merge_row": "&input", "plan": "&input", "runs": "&input", "write_log": "&input", "read_table": "&input",
           "small_days": "number as u32", "heaviest_line": "&input", "sheet": MODE_AND_PAGE}
NUMBERS = {"read_record": ("&input", 7), "finish": ("&input", 1), "work": ("&input", 3), "day": ("&input", 4),
           "backwards": (RUN_AND_Y, 1)}
ARMS["tulghimo::tulghimo_common"] = f'format!("{{}}", tulghimo::tulghimo_common({TWO_NUMBERS}))'
ARMS |= {f"tulghimo::tulghimo_farms_{name}": WITH_STATE.format(how) for name, how in {
    "fresh": "tulghimo::tulghimo_farms_fresh(number as u32, &mut state)", "send": f"tulghimo::tulghimo_farms_send({SENT})",
    "end_of_day": f"answered(tulghimo::tulghimo_farms_end_of_day({OF_FARM}), &out)"}.items()}
ARMS |= {f"tulghimo::tulghimo_{name}": f"""answered(tulghimo::tulghimo_{name}({lent}, &mut out), &out)"""
         for name, lent in LENGTHS.items()}
ARMS |= {f"tulghimo::tulghimo_{name}": f"""{{
            let mut numbers: [i64; {count}] = std::array::from_fn(|i| -7 - i as i64);
            format!("{{}} {{numbers:?}}", tulghimo::tulghimo_{name}({lent}, &mut numbers))
        }}""" for name, (lent, count) in NUMBERS.items()}

MAIN = """
fn bytes(hex: &str) -> Vec<u8> {
    (0..hex.len() / 2).map(|i| u8::from_str_radix(&hex[2 * i..2 * i + 2], 16).unwrap()).collect()
}

/// An outer figure, which stands behind the run that it is asked about.
fn y(bytes: &[u8]) -> i64 {
    i64::from_le_bytes(bytes.try_into().unwrap())
}

/// What a lent buffer holds before the call.
fn lent(n: usize) -> Vec<u8> {
    (0..n).map(|i| (167 + 59 * i) as u8).collect()
}

/// What it holds after it: the bytes up to the last one that is another, and how many stayed behind them.
fn after(out: &[u8]) -> String {
    let n = lent(out.len()).iter().zip(out).rposition(|(a, b)| a != b).map_or(0, |i| i + 1);
    let told: String = out[..n].iter().map(|x| format!("{x:02x}")).collect();
    format!("{n} bytes {told}, then {} as they were", out.len() - n)
}

fn told<T>(answer: Result<T, gate::Refusal>, how: impl Fn(T) -> String) -> String {
    match answer {
        Ok(result) => how(result),
        Err(refusal) => format!("refused {}", refusal.number()),
    }
}

fn written(answer: Result<usize, gate::Refusal>, out: &[u8]) -> String {
    match answer {
        Ok(n) => answered(n as i64, out),
        Err(refusal) => format!("refused {}; {}", refusal.number(), after(out)),
    }
}

const STATE: usize = 14304;

/// What was written of a state: the bytes from the first to the last that are others now.
fn moved(before: &[u8], state: &[u8]) -> String {
    let others: Vec<usize> = (0..STATE).filter(|&i| before[i] != state[i]).collect();
    match others[..] {
        [] => "the state as it was".to_string(),
        [first, ..] => {
            let last = others[others.len() - 1];
            let told: String = state[first..=last].iter().map(|x| format!("{x:02x}")).collect();
            format!("from byte {first} of the state on {told}")
        }
    }
}

fn answered(n: i64, out: &[u8]) -> String {
    format!("{n}; {}", after(out))
}

fn main() {
    std::panic::set_hook(Box::new(|_| {}));
    let mut line = String::new();
    std::io::stdin().read_line(&mut line).unwrap();
    let told = std::panic::catch_unwind(|| answer(line.trim()));
    println!("{}", told.unwrap_or("stopped".to_string()));
}

fn answer(line: &str) -> String {
    let words: Vec<&str> = line.split(' ').collect();
    chosen::CHANGE.store(words[0].parse().unwrap(), std::sync::atomic::Ordering::Relaxed);
    let number: usize = words[2].parse().unwrap();
    let mut out = lent(words[3].parse().unwrap());
    let input = bytes(words[4].trim_matches('-'));
    match words[1] {
%s        other => panic!("{other}"),
    }
}
"""

CHOSEN = """
use std::sync::atomic::{AtomicUsize, Ordering};
pub static CHANGE: AtomicUsize = AtomicUsize::new(0);
pub fn change() -> usize {
    CHANGE.load(Ordering::Relaxed)
}
"""

# ---- the sources in Rust


# A clause of a contract, up to the brace that opens it.
CLAUSE = re.compile(r"\n\s+(?:requires|ensures)\b[^{\n]*(?={)")


def without_clauses(text):
    """A source with no contracts: each clause ends with the brace that closes it."""
    while clause := CLAUSE.search(text):
        end, depth = clause.end() + 1, 1
        while depth:
            depth += {"{": 1, "}": -1}.get(text[end], 0)
            end += 1
        text = text[:clause.start()] + text[end:]
    return text


def plain(text):
    """Rust: the contracts and what is said to the checker taken off."""
    text = re.sub(r"^ghost use [^;]*;\n", "", text, flags=re.M)
    return re.sub(r"^ *#!?\[tactic\(.*\)\]\n", "", without_clauses(text), flags=re.M)


def function(text, name):
    return next(m[0] for found, m in edits.functions(text) if found == name)


def switched(text, name, versions):
    """A source whose function of this name is the one with the chosen number; versions has the source of each."""
    as_it_is = function(text, name)
    of, _, name = name.rpartition("::")
    bodies = [as_it_is] + [function(version, f"{of}::{name}" if of else name) for version in versions.values()]
    head, shape, parameters = re.match(r'((?: {4})?(?:pub )?(?:extern "C" )?)fn \w+((?:<[^>]*>)?\(([^)]*)\)[^{]*)\{', as_it_is).groups()
    given = re.findall(r"(?:^|,)\s*(?:&\s*)?(?:mut )?(self\b|\w+(?=\s*:[^:]))", parameters)
    itself = "self." if given[:1] == ["self"] else "Self::" if of else ""
    given = ", ".join(name for name in given if name != "self")
    arms = "".join(f"{number} => {itself}{name}_{number}({given}), " for number in versions)
    named = [re.sub(rf"\bfn {name}\b", f"fn {name}_{number}", body, count=1) for number, body in zip([0, *versions], bodies)]
    chooser = f"{head}fn {name}{shape}{{ match chosen::change() {{ {arms}_ => {itself}{name}_0({given}) }} }}"
    return text.replace(as_it_is, "\n".join([chooser, *named]))


def version(text, number, change):
    """A source with a change, and the constant that it changes, under a name of its own."""
    constant, changed = edits.item_at(edits.constants, text, change.pairs[0].old), edits.edited(text, change.pairs)
    if not constant:
        return changed, ""
    changed = re.sub(rf"\b{constant}\b", f"{constant}_{number}", changed)
    return changed, next(m[0] for name, m in edits.constants(changed) if name == f"{constant}_{number}")


def rust(crate, file, numbered):
    """A file of a crate in Rust, each function that is changed in all its versions."""
    text, by_function, constants = edits.source(crate, file), {}, []
    for number, change in numbered:
        if change.crate == crate and change.pairs[0].file == file:
            module, name = pathlib.Path(file).stem, edits.function_of(change)
            name = name if module == "lib" else name.removeprefix(f"{module}::")
            changed, constant = version(text, number, change)
            by_function.setdefault(name, {})[number] = plain(changed)
            constants.append(constant)
    text = plain(text)
    for name, versions in by_function.items():
        text = switched(text, name, versions)
    return "\n".join([text, *filter(None, constants)])


def libraries():
    """Each library that has code, with those that it stands on. crates.txt has it after these."""
    listed = re.findall(r"^([a-z0-9_]+)(?: staticlib)? *:(.*)$", (edits.ROOT / "crates.txt").read_text(), flags=re.M)
    coded = [name for name, _ in listed if (edits.CRATES / name / "src" / "lib.rt").exists()
             and any(re.search(r"\b(fn|enum) ", f.read_text()) for f in (edits.CRATES / name / "src").glob("*.rt"))]
    return [(name, [d for d in words.split() if d in coded]) for name, words in listed if name in coded]


def rustc(folder, source, words, deps):
    externs = [w for d in deps for w in ("--extern", f"{d}={folder}/lib{d}.rlib")]
    built = subprocess.run(["rustc", "--edition", "2021", "-A", "warnings", "-C", "overflow-checks=on",
                            "-L", folder, source, *words, *externs], capture_output=True, text=True)
    if built.returncode != 0:
        raise SystemExit(f"rustc: {source}\n{built.stderr}")


def library(folder, name, deps):
    rustc(folder, folder / name / "lib.rs",
          ["--crate-type", "rlib", "--crate-name", name, "-o", folder / f"lib{name}.rlib"], deps)


def build(folder, numbered):
    """The program in a folder, with every change in it."""
    (folder / "chosen").mkdir()
    (folder / "chosen" / "lib.rs").write_text(CHOSEN)
    library(folder, "chosen", [])
    all_of = libraries()
    for name, deps in all_of:
        (folder / name).mkdir()
        for path in (edits.CRATES / name / "src").glob("*.rt"):
            (folder / name / f"{path.stem}.rs").write_text(rust(name, f"src/{path.name}", numbered))
        library(folder, name, ["chosen", *deps])
    arms = "".join(f'        "{name}" => {how},\n' for name, how in ARMS.items())
    (folder / "main.rs").write_text(MAIN % arms)
    rustc(folder, folder / "main.rs", ["-o", folder / "main"], ["chosen", *(name for name, _ in all_of)])
    return folder / "main"


# ---- what the two answer


def ask(program, number, request):
    try:
        ran = subprocess.run([program], input=f"{number} {request}\n", capture_output=True, text=True, timeout=20)
    except subprocess.TimeoutExpired:
        return "does not end"
    return ran.stdout.strip() or "stopped"


def cut(text, most=120):
    return text if len(text) <= most else text[:most] + " .."


def told(program, number, change):
    """Whether a change shows what it claims: an input tells it from the program, or, where it means the same, does not."""
    right, wrong = ask(program, 0, INPUTS[change.title]), ask(program, number, INPUTS[change.title])
    good = right not in ("stopped", "does not end") and change.same == (right == wrong)
    verdict = "the same" if right == wrong else "edited"
    print(f"{change.title}: {INPUTS[change.title].split(' ')[0]}\n    right: {cut(right)}\n"
          f"    {verdict if good else verdict.upper() + ', WHICH IS WRONG'}: {cut(wrong)}", flush=True)
    return good


def misfits(of_code):
    """What is wrong before anything is run."""
    return (edits.misfits() + [f"{name}: no such change" for name in sorted(set(INPUTS) - {c.title for c in of_code})]
            + [f"{change.title}: no input" for change in of_code if change.title not in INPUTS])


def main(chosen):
    of_code = [change for change in edits.all_changes() if change.pairs and change.pairs[0].file.startswith("src/")]
    if wrong := misfits(of_code):
        print("\n".join(wrong))
        return 1
    numbered = [(number, change) for number, change in enumerate(of_code, 1)
                if not chosen or any(change.title.startswith(word) for word in chosen)]
    with tempfile.TemporaryDirectory() as scratch:
        program = build(pathlib.Path(scratch), numbered)
        failed = sum(not told(program, number, change) for number, change in numbered)
    same = sum(change.same for _, change in numbered)
    print(f"{len(numbered) - same} changes and {same} that mean the same: {len(numbered) - failed} answer as they should, {failed} do not")
    return 0 if numbered and failed == 0 else 1


if __name__ == "__main__":
    sys.exit(main(sys.argv[1:]))
