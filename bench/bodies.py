#!/usr/bin/env python3
"""Measures the runs of a body of 10, 100 and 1,000 assignments, with all inputs known and with one in ten unknown, against
the same expressions on plain u128 in Rust, compiled and as trees that are walked.

    bench/bodies.py PROGRAM [TERMS]

PROGRAM is crates/bench/out/bench, built by `rt run` in crates/bench. Each body is run until about so many
terms are evaluated. A term is an operator or an operand. Printed are nanoseconds of processor time, the least of several
tries, and instructions by `valgrind --tool=callgrind`, which other work does not change: each is what the runs take more than
none. It needs rustc and valgrind.
"""
import pathlib
import random
import re
import resource
import subprocess
import sys
import tempfile

INPUTS = 64
TRIES = 7

# Each operator in Rust, for 16 bits.
BINARY = {
    "&": "({} & {})",
    "|": "({} | {})",
    "^": "({} ^ {})",
    "+": "(({} + {}) & 0xffff)",
    "-": "({}.wrapping_sub({}) & 0xffff)",
}
TEST = {"==": "({} == {})", "<": "({} < {})"}

RUST = """use std::hint::black_box;

enum Term {
    Input(usize),
    Not(Box<Term>),
    Binary(char, Box<Term>, Box<Term>),
    Choice(Box<Term>, Box<Term>, Box<Term>),
}

fn parse<'a>(words: &mut impl Iterator<Item = &'a str>) -> Box<Term> {
    let word = words.next().unwrap();
    Box::new(match word {
        "~" => Term::Not(parse(words)),
        "?" => Term::Choice(parse(words), parse(words), parse(words)),
        _ => match word.strip_prefix('a') {
            Some(number) => Term::Input(number.parse().unwrap()),
            None => Term::Binary(word.chars().next().unwrap(), parse(words), parse(words)),
        },
    })
}

fn walk(term: &Term, a: &[u128; INPUTS]) -> u128 {
    match term {
        Term::Input(number) => a[*number],
        Term::Not(of) => !walk(of, a) & 0xffff,
        Term::Choice(test, yes, no) => {
            if walk(test, a) != 0 { walk(yes, a) } else { walk(no, a) }
        }
        Term::Binary(op, one, other) => {
            let (one, other) = (walk(one, a), walk(other, a));
            match op {
                '&' => one & other,
                '|' => one | other,
                '^' => one ^ other,
                '+' => (one + other) & 0xffff,
                '-' => one.wrapping_sub(other) & 0xffff,
                '=' => (one == other) as u128,
                _ => (one < other) as u128,
            }
        }
    }
}

fn repeated(rounds: u64, y: &mut [u128], run: impl Fn(&[u128; INPUTS], &mut [u128])) {
    let a: [u128; INPUTS] = std::array::from_fn(|k| k as u128 * 40503 % 65536);
    for _ in 0..rounds {
        run(black_box(&a), black_box(y));
    }
    let sum: u128 = y.iter().enumerate().map(|(k, y)| y * (k + INPUTS) as u128).sum();
    println!("{sum}");
}
"""


def expression(depth):
    """An expression of 16 bits in Verilog, in Rust and as words with each operator first, and its number of terms."""
    if depth <= 0:
        number = random.randrange(INPUTS)
        return f"a{number}", f"a[{number}]", f"a{number}", 1
    kind = random.randrange(8)
    if kind == 0:
        of = expression(depth - 1)
        return f"(~{of[0]})", f"(!{of[1]} & 0xffff)", f"~ {of[2]}", of[3] + 1
    if kind == 1:
        op = random.choice(list(TEST))
        one, other = expression(depth - 2), expression(depth - 2)
        yes, no = expression(depth - 1), expression(depth - 1)
        test = TEST[op].format(one[1], other[1])
        return (
            f"(({one[0]} {op} {other[0]}) ? {yes[0]} : {no[0]})",
            f"(if {test} {{ {yes[1]} }} else {{ {no[1]} }})",
            f"? {op} {one[2]} {other[2]} {yes[2]} {no[2]}",
            one[3] + other[3] + yes[3] + no[3] + 2,
        )
    op = random.choice(list(BINARY))
    one, other = expression(depth - 1), expression(depth - 1)
    rust = BINARY[op].format(one[1], other[1])
    return f"({one[0]} {op} {other[0]})", rust, f"{op} {one[2]} {other[2]}", one[3] + other[3] + 1


def verilog(body):
    """The module with this body."""
    ports = [f"input [15:0] a{k}" for k in range(INPUTS)] + [f"output reg [15:0] y{k}" for k in range(len(body))]
    lines = [f"    y{k} = {text[0]};" for k, text in enumerate(body)]
    return "\n".join(["module m(", ",\n".join(ports), ");", "  always @* begin", *lines, "  end", "endmodule", ""])


def rust(bodies):
    """The program that evaluates the same expressions, where each body is a function over its inputs and outputs."""
    parts = [f"const INPUTS: usize = {INPUTS};\n", RUST]
    for number, body in enumerate(bodies):
        lines = [f"    y[{k}] = {text[1]};" for k, text in enumerate(body)]
        head = f"#[inline(never)]\nfn body{number}(a: &[u128; INPUTS], y: &mut [u128]) {{\n    let y = &mut y[..{len(body)}];"
        parts.append("\n".join([head, *lines, "}", ""]))
        words = " ".join(text[2] for text in body)
        parts.append(
            f"""fn run{number}(rounds: u64, trees: bool) {{
    let mut y = vec![0u128; {len(body)}];
    if !trees {{
        return repeated(rounds, &mut y, body{number});
    }}
    let mut words = "{words}".split(' ');
    let body: Vec<Box<Term>> = (0..{len(body)}).map(|_| parse(&mut words)).collect();
    repeated(rounds, &mut y, |a, y| {{
        for (y, term) in y.iter_mut().zip(&body) {{
            *y = walk(term, a);
        }}
    }});
}}
"""
        )
    arms = "\n".join(f'        "{n}" => run{n}(rounds, words[3] == "trees"),' for n in range(len(bodies)))
    parts.append(
        f"""fn main() {{
    let words: Vec<String> = std::env::args().collect();
    let rounds = words[2].parse().unwrap();
    match words[1].as_str() {{
{arms}
        _ => {{}}
    }}
}}
"""
    )
    return "".join(parts)


def output(command):
    """What a command prints."""
    return subprocess.run(command, check=True, capture_output=True, text=True).stdout


def processor_time(command):
    """The seconds of processor time that a command takes."""
    before = resource.getrusage(resource.RUSAGE_CHILDREN)
    output(command)
    after = resource.getrusage(resource.RUSAGE_CHILDREN)
    return after.ru_utime - before.ru_utime + after.ru_stime - before.ru_stime


def seconds(command, rounds):
    """The least processor time of so many rounds, of several tries, without that of none."""
    runs, none = (min(processor_time(command(n)) for _ in range(TRIES)) for n in (rounds, 0))
    return runs - none


def counted(command):
    """The instructions of a command."""
    watched = ["valgrind", "--tool=callgrind", "--callgrind-out-file=/dev/null", *command]
    text = subprocess.run(watched, check=True, capture_output=True, text=True).stderr
    return int(re.search(r"Collected : (\d+)", text)[1])


def instructions(command, rounds):
    """The instructions of so many rounds, without those of none."""
    return counted(command(rounds)) - counted(command(0))


def commands(program, plain, source, number):
    """The commands that are compared, each as a function of the number of rounds."""
    return {
        "all known": lambda rounds: [program, "bodies", source, str(rounds), "0"],
        "one in ten unknown": lambda rounds: [program, "bodies", source, str(rounds), "10"],
        "u128, trees": lambda rounds: [plain, str(number), str(rounds), "trees"],
        "u128, compiled": lambda rounds: [plain, str(number), str(rounds), "compiled"],
    }


def main():
    if len(sys.argv) not in (2, 3):
        sys.exit(__doc__)
    program = sys.argv[1]
    work = int(sys.argv[2]) if len(sys.argv) > 2 else 10_000_000
    random.seed(1)
    bodies = [[expression(3) for _ in range(count)] for count in (10, 100, 1000)]
    with tempfile.TemporaryDirectory() as scratch:
        folder = pathlib.Path(scratch)
        plain = str(folder / "plain")
        (folder / "plain.rs").write_text(rust(bodies))
        subprocess.run(["rustc", "-O", "-A", "warnings", "-o", plain, folder / "plain.rs"], check=True)
        for number, body in enumerate(bodies):
            terms = sum(text[3] for text in body)
            source = str(folder / f"body{number}.v")
            pathlib.Path(source).write_text(verilog(body))
            compared = commands(program, plain, source, number)
            sums = {output(compared[name](1)).split()[0] for name in compared if name != "one in ten unknown"}
            assert len(sums) == 1, "the outputs differ"
            print(f"{len(body)} assignments, {terms} terms")
            for name, command in compared.items():
                rounds = max(1, work // terms) * (20 if name == "u128, compiled" else 1)
                nanos = seconds(command, rounds) / rounds / terms * 1e9
                few = max(1, 20_000 // terms)
                steps = instructions(command, few) / few / terms
                print(f"  {name:<20} {nanos:8.2f} ns a term {steps:8.1f} instructions a term")


if __name__ == "__main__":
    main()
