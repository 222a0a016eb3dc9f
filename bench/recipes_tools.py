"""Parts of bench/recipes: the tools for the repository's own proofs, on small repositories made here."""
import os
import re
import shutil
import subprocess
import sys

HERE = os.path.dirname(os.path.dirname(os.path.abspath(__file__)))


def put(name, text):
    os.makedirs(os.path.dirname(name) or ".", exist_ok=True)
    with open(name, "w") as file:
        file.write(text)


def tool(name, *words):
    """What a tool does that lies in the bench of the repository in this folder: its status, standard error and output."""
    made = subprocess.run([os.path.join("bench", name), *words], stdin=subprocess.DEVNULL, capture_output=True, text=True)
    return "status %d\n%s%s" % (made.returncode, made.stderr, made.stdout)


def repository(crates, *tools):
    """A repository here with these lines of crates.txt and these tools."""
    put("crates.txt", crates)
    os.makedirs("bench", exist_ok=True)
    for name in ("crate_list.py", *tools):
        shutil.copy(os.path.join(HERE, "bench", name), "bench")


# A run of the gate: seconds, what, and of a check its crate, part, begin and processor seconds.
GATE = """0.00 begun 4 .ci/run
10.00 took low proof 0.50 9.00
30.00 took left proof 10.00 19.00
40.00 took right proof 10.00 60.00
41.00 said rt: left proved
45.00 took left tests 10.00 30.00
50.00 took left edits 45.00 4.00
60.00 took left edits 50.00 8.00
90.00 took top proof 40.00 49.00
100.00 ended 0 200.00
"""
# A check that is busy for a while, and then still there when it's looked at; the last one is that of an edit.
CHECK = "#!/bin/sh\ni=0\nwhile [ $i -lt 200000 ]; do i=$((i + 1)); done\nsleep 1\n"
RUN = """#!/bin/sh
echo == low
./rattle build --crate-name low src/lib.rt
./rattle build --crate-name low --test src/lib.rt
cd rt-edit-x && ../rattle check --crate-name low src/lib.rt
echo "1 passed, 1 failed"
exit 1
"""


def cost():
    """A table of a run, the chain, what is kept of it, and a crate that became dearer; then a run that is watched."""
    repository("# comment\nlow: std\nleft: low\nright: low csv\ntop: left right\n", "cost")
    put("log", GATE)
    out = "ways: " + tool("cost", "ways") + "table: " + tool("cost", "table", "log")
    out += "nothing kept: " + tool("cost", "compare", "log").replace(os.getcwd(), "FOLDER")
    out += "keep: " + tool("cost", "keep", "log")
    with open("bench/cost-kept.txt") as file:
        out += file.read()
    put("log", GATE.replace("60.00\n", "99.00\n", 1))
    out += "compare: " + tool("cost", "compare", "log") + "no such verb: " + tool("cost", "sum")[:9]
    for name, text in (("rattle", CHECK), (".ci/run", RUN)):
        put(name, text)
        os.chmod(name, 0o755)
    os.makedirs("rt-edit-x")
    out += "run: " + tool("cost", "run", "log")
    with open("log") as file:
        # times differ from run to run; that each check took some is seen
        lines = re.sub(r"(?m)^[\d.]+ ", "", file.read())
    lines = re.sub(r"(?m)^(begun) \d+", r"\1 N", lines)
    lines = re.sub(r"(?m)^(took \w+ \w+) [\d.]+ [\d.]*[1-9][\d.]*$", r"\1 from T some", lines)
    lines = re.sub(r"(?m)^(ended \d+) [\d.]*[1-9][\d.]*$", r"\1 some", lines)
    # the end of a check and what is printed then come in either order
    return out + "\n".join(sorted(lines.splitlines())) + "\n"


PLAIN = """-- Plain things.
use Rattle.std.specs.Prelude.{◌≡◌, ℕ}

-- twice the number
abbrev pub twice : ℕ → ℕ
twice n = n + n
"""
LOWER = """use Rattle.std.specs.Prelude.{◌≡◌, ℕ, Bool}
use Rattle.low.specs.Plain.{twice}
use Rattle.low.specs.contracts.value.NumberPartialEq.TheImpl as number_impl

abbrev pub four_times : ℕ → ℕ
four_times n = twice (twice n)

unfoldable pub is_same : ℕ → ℕ → Bool
is_same = (number_impl.ghosts).eq

abbrev pub IsCounted : ℕ → Type 0
IsCounted n = is_same n n ≡ true
"""
CALL = """ghost use Rattle.std.specs.Prelude.{◌≡◌};
ghost use Rattle.low.specs.Lower.{four_times, IsCounted};

pub fn sound(n: u32) -> u32
    // four of them
    ensures { result ≡ four_times n }
{
    n * 4
}

pub fn unsound(n: u32) -> u32
    requires few { n < 9 }
    ensures counted { IsCounted n }
{
    n
}
"""


def closure():
    """A call whose clause rests on definitions alone, one whose clause rests on an implementation, and none."""
    repository("low: std\n", "closure", "definitions.py")
    put("crates/low/specs/Plain.antt", PLAIN)
    put("crates/low/specs/Lower.antt", LOWER)
    put("crates/low/src/parts/calls.rt", CALL)
    return "".join("%s: %s" % (name, tool("closure", "low", name)) for name in ("sound", "unsound", "none"))


CODE = """ghost use Rattle.std.specs.Prelude.{◌≡◌};

enum Light {
    Red,
    Green,
    Timed(u32),
    Flashing(u32),
}

// Whether a < b and the light is green.
fn is_on(light: Light, a: u32, b: u32) -> bool
    requires { a < 5 }
{
    if a < b && b != 7 {
        return matches!(light, Light::Green);
    }
    let other = is_on(Light::Timed(a + 1), b, a);
    "a < b" == "b && a" || other
}

fn gather(out: &mut Vec<u32>, from: u32, to: u32) -> Result<(), NoMemory> {
    out.reserve(to - from + 1)?;
    for n in from..to {
        out.push(n - 1)?;
    }
    Ok(())
}

#[cfg(test)]
mod tests {
    #[test]
    fn works() {
        assert!(1 < 2);
    }
}
"""


def mutants():
    """The bugs of two functions: none in a clause, a comment, a text, a test, or a number that only asks for room."""
    repository("low: std\n", "mutants", "mutant_text.py")
    put("crates/low/src/lib.rt", CODE)
    out = "\n".join(sorted(tool("mutants", "--list", "low").splitlines())) + "\n"
    return out + "unknown: " + tool("mutants", "--list", "high")


def moved():
    """What the model of bench/moved answers to edits worked by hand, without the program."""
    sys.path.insert(0, os.path.join(HERE, "bench"))
    import moved_model as model
    from moved_model import Approach, Log, Seen, Setup
    setup = Setup(3, [2], [2], [], [3], False, {("phase", 2): {"Green": 30}}, [Approach("N", 2, 5, 5, 100)])
    service = ((35900, 1, 2), (35930, 4, 2), (35940, 8, 2), (35985, 9, 2))
    logs = [("two hours, empty", Log([(), (), None])), ("a service before point 1", Log([service, (), None])),
            ("another reason", Log([(service[0], (35930, 5, 2), *service[2:]), (), None])),
            ("another end of green", Log([(*service[:2], (35940, 7, 2), *service[2:]), (), None])),
            ("too short a green", Log([((35911, 1, 2), *service[1:]), (), None])),
            ("an arrival on its way", Log([(*service, (35990, 82, 5)), (), None])),
            ("a fault before it", Log([(*service, (35989, 85, 5), (35990, 82, 5)), (), None])),
            ("a gap after it", Log([(*service, (35989, 85, 5), (35990, 82, 5)), (), None], [(35995, 36005)])),
            ("a walk and a call", Log([((100, 45, 2), (200, 21, 2), (35999, 102, 3)), (), None]))]
    out, old = "", Seen(setup, Log([None] * 3))
    for name, log in logs:
        new = Seen(setup, log)
        if new.contradiction:
            out += "%s: contradiction %s\n" % (name, new.contradiction)
            continue
        parts = [model.differing(old, new, point) for point in (1, 2)]
        out += "%s: moved %d %d; %s\n" % (name, *model.moved(old, new, 0, 0), "; ".join(map(", ".join, parts)))
        old = new
    return out


def tools():
    """The parts that can be run here."""
    found = [cost, closure, moved]
    if shutil.which("rt"):
        return found + [mutants]
    print("mutants: left out, there is no rt (the command of the Rattle toolchain)")
    return found
