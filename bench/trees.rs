//! The terms of a body evaluated in two ways: by a walk over their trees, as `term_replay` does, and by one pass over a
//! list of operations that was made of them once. The trees are walked where their boxes lie apart, as elaboration leaves
//! them, and where each box lies before what is in it, as `process_copies` makes them. All use the same vectors and
//! operators, which have the sizes of those of `known_state`. It prints the nanoseconds that one term takes: `trees [TERMS [ROUNDS]]`.
use std::hint::black_box;
use std::time::Instant;

/// A vector of four-state bits of which some are sure, as `known_state::Known` has it.
#[derive(Clone, Copy, PartialEq, Debug)]
struct Known {
    ones: u128,
    strange: u128,
    width: u8,
    signed: bool,
    sure: u128,
    blame: u32,
}

#[derive(Clone, Copy)]
enum Binary {
    And,
    Or,
    Add,
    Equal,
}

/// What each term has beside its form, as `design_model::Term`.
#[derive(Clone, Copy)]
struct Head {
    /// Of the first token; it is carried, and read by no operator.
    #[allow(dead_code)]
    place: (u32, u32, u32),
    width: u8,
    signed: bool,
    node: Option<u32>,
}

struct Term {
    head: Head,
    form: Box<Form>,
}

enum Form {
    Signal(u32),
    Not(Term),
    Binary(Binary, Term, Term),
    Choice(Term, Term, Term),
}

/// One operation of the list, which takes its operands from a stack.
#[derive(Clone, Copy)]
enum Operation {
    Signal(u32),
    Not,
    Binary(Binary),
    Choice,
}

fn mask(width: u8) -> u128 {
    u128::MAX >> (128 - width as u32)
}

fn is_whole(a: &Known) -> bool {
    a.sure == mask(a.width)
}

fn whole(ones: u128, strange: u128, head: &Head) -> Known {
    let all = mask(head.width);
    Known { ones: ones & all, strange: strange & all, width: head.width, signed: head.signed, sure: all, blame: 0 }
}

fn unsure(head: &Head, blame: u32) -> Known {
    Known { ones: 0, strange: 0, width: head.width, signed: head.signed, sure: 0, blame }
}

fn not(a: &Known, head: &Head) -> Known {
    if is_whole(a) { whole(!a.ones | a.strange, a.strange, head) } else { unsure(head, a.blame) }
}

fn binary(op: Binary, a: &Known, b: &Known, head: &Head) -> Known {
    if !is_whole(a) || !is_whole(b) {
        return unsure(head, if is_whole(a) { b.blame } else { a.blame });
    }
    let strange = a.strange | b.strange;
    match op {
        Binary::And => whole(a.ones & b.ones, strange, head),
        Binary::Or => whole(a.ones | b.ones, strange, head),
        Binary::Add if strange == 0 => whole(a.ones.wrapping_add(b.ones), 0, head),
        Binary::Equal if strange == 0 => whole((a.ones == b.ones) as u128, 0, head),
        Binary::Add | Binary::Equal => whole(0, u128::MAX, head),
    }
}

fn choice(c: &Known, a: &Known, b: &Known, head: &Head) -> Known {
    if !is_whole(c) {
        return unsure(head, c.blame);
    }
    if c.ones & !c.strange != 0 { *a } else { *b }
}

fn noted(value: Known, head: &Head, notes: &mut u64) -> Known {
    if head.node.is_some() {
        *notes += 1;
    }
    value
}

/// The value of a term, by a walk over its tree.
fn walk(term: &Term, signals: &[Known], first: &mut Option<u32>, notes: &mut u64) -> Known {
    let head = &term.head;
    let value = match &*term.form {
        Form::Signal(s) => read(signals, *s, first),
        Form::Not(a) => not(&walk(a, signals, first, notes), head),
        Form::Binary(op, a, b) => {
            let a = walk(a, signals, first, notes);
            let b = walk(b, signals, first, notes);
            binary(*op, &a, &b, head)
        }
        Form::Choice(c, a, b) => {
            let c = walk(c, signals, first, notes);
            let a = walk(a, signals, first, notes);
            let b = walk(b, signals, first, notes);
            choice(&c, &a, &b, head)
        }
    };
    noted(value, head, notes)
}

fn read(signals: &[Known], signal: u32, first: &mut Option<u32>) -> Known {
    let value = signals[signal as usize];
    if !is_whole(&value) && first.is_none() {
        *first = Some(value.blame);
    }
    value
}

/// The value of the term of which the list was made, by one pass over it.
fn run(list: &[(Operation, Head)], signals: &[Known], stack: &mut Vec<Known>, first: &mut Option<u32>, notes: &mut u64) -> Known {
    stack.clear();
    for (operation, head) in list {
        let value = match operation {
            Operation::Signal(s) => read(signals, *s, first),
            Operation::Not => not(&stack.pop().unwrap(), head),
            Operation::Binary(op) => {
                let b = stack.pop().unwrap();
                let a = stack.pop().unwrap();
                binary(*op, &a, &b, head)
            }
            Operation::Choice => {
                let b = stack.pop().unwrap();
                let a = stack.pop().unwrap();
                let c = stack.pop().unwrap();
                choice(&c, &a, &b, head)
            }
        };
        stack.push(noted(value, head, notes));
    }
    stack.pop().unwrap()
}

fn list_of(term: &Term, list: &mut Vec<(Operation, Head)>) {
    let operation = match &*term.form {
        Form::Signal(s) => Operation::Signal(*s),
        Form::Not(a) => {
            list_of(a, list);
            Operation::Not
        }
        Form::Binary(op, a, b) => {
            list_of(a, list);
            list_of(b, list);
            Operation::Binary(*op)
        }
        Form::Choice(c, a, b) => {
            list_of(c, list);
            list_of(a, list);
            list_of(b, list);
            Operation::Choice
        }
    };
    list.push((operation, term.head));
}

struct Random(u64);

impl Random {
    fn below(&mut self, n: u64) -> u64 {
        self.0 = self.0.wrapping_mul(6364136223846793005).wrapping_add(1442695040888963407);
        (self.0 >> 33) % n
    }
}

fn term(random: &mut Random, depth: u32) -> Term {
    let head = Head { place: (0, 1, 1), width: 16, signed: false, node: (depth > 0).then_some(depth) };
    let form = if depth == 0 {
        Form::Signal(random.below(64) as u32)
    } else {
        match random.below(8) {
            0 => Form::Not(term(random, depth - 1)),
            1 => Form::Choice(term(random, depth - 1), term(random, depth - 1), term(random, depth - 1)),
            n => {
                let op = [Binary::And, Binary::Or, Binary::Add, Binary::Equal][(n % 4) as usize];
                Form::Binary(op, term(random, depth - 1), term(random, depth - 1))
            }
        }
    };
    Term { head, form: Box::new(form) }
}

/// A copy of a term, where each box is allocated before what is in it. What `between` makes before each box keeps it apart.
fn copy<T>(term: &Term, between: &mut impl FnMut() -> T, rest: &mut Vec<T>) -> Term {
    rest.push(between());
    let mut form = Box::new(Form::Signal(0));
    let mut next = |term: &Term| copy(term, between, rest);
    *form = match &*term.form {
        Form::Signal(s) => Form::Signal(*s),
        Form::Not(a) => Form::Not(next(a)),
        Form::Binary(op, a, b) => {
            let a = next(a);
            Form::Binary(*op, a, next(b))
        }
        Form::Choice(c, a, b) => {
            let c = next(c);
            let a = next(a);
            Form::Choice(c, a, next(b))
        }
    };
    Term { head: term.head, form }
}

/// Copies of terms, one after the other in memory.
fn in_order(body: &[Term]) -> Vec<Term> {
    body.iter().map(|term| copy(term, &mut || (), &mut Vec::new())).collect()
}

/// Copies of terms whose boxes lie apart, with what lies between them.
fn apart(body: &[Term], random: &mut Random) -> (Vec<Term>, Vec<Vec<u8>>) {
    let mut rest = Vec::new();
    let mut between = || vec![0; 16 + random.below(200) as usize];
    (body.iter().map(|term| copy(term, &mut between, &mut rest)).collect(), rest)
}

/// The least time of five that a function takes.
fn least(mut function: impl FnMut()) -> f64 {
    let timed = |_| {
        let begun = Instant::now();
        function();
        begun.elapsed().as_nanos() as f64
    };
    (0..5).map(timed).fold(f64::MAX, f64::min)
}

fn signals(random: &mut Random, unsure_in_ten: u64) -> Vec<Known> {
    (0..64)
        .map(|s| {
            let ones = random.below(1 << 16) as u128;
            let sure = if random.below(10) < unsure_in_ten { 0 } else { mask(16) };
            Known { ones: ones & sure, strange: 0, width: 16, signed: false, sure, blame: s }
        })
        .collect()
}

/// The values of a body by its trees and by its lists are the same.
fn compare(body: &[Term], lists: &[Vec<(Operation, Head)>], signals: &[Known]) {
    let mut stack = Vec::new();
    for (term, list) in body.iter().zip(lists) {
        let (mut a, mut b, mut m, mut n) = (None, None, 0, 0);
        assert_eq!(walk(term, signals, &mut a, &mut m), run(list, signals, &mut stack, &mut b, &mut n));
        assert_eq!((a, m), (b, n));
    }
}

fn main() {
    let mut words = std::env::args().skip(1).map(|w| w.parse::<usize>().expect("a number"));
    let terms = words.next().unwrap_or(100);
    let rounds = words.next().unwrap_or(20_000);
    println!("{:>8} {:>10} {:>12} {:>12} {:>12}", "terms", "unsure", "apart", "in order", "list");
    for unsure_in_ten in [0, 1] {
        let mut random = Random(1);
        let body: Vec<Term> = (0..terms).map(|_| term(&mut random, 3)).collect();
        let signals = signals(&mut random, unsure_in_ten);
        let made = |term| {
            let mut list = Vec::new();
            list_of(term, &mut list);
            list
        };
        let lists: Vec<_> = body.iter().map(made).collect();
        compare(&body, &lists, &signals);
        let nodes: usize = lists.iter().map(Vec::len).sum();
        let (mut first, mut notes, mut stack) = (None, 0, Vec::with_capacity(64));
        let mut walked = |body: &[Term]| {
            least(|| {
                for term in (0..rounds).flat_map(|_| body) {
                    black_box(walk(black_box(term), &signals, &mut first, &mut notes));
                }
            })
        };
        let (scattered, _rest) = apart(&body, &mut random);
        let times = [walked(&scattered), walked(&in_order(&body)), least(|| {
            for list in (0..rounds).flat_map(|_| &lists) {
                black_box(run(black_box(list), &signals, &mut stack, &mut None, &mut 0));
            }
        })];
        let [apart, ordered, listed] = times.map(|it| it / (rounds * nodes) as f64);
        println!("{nodes:>8} {unsure_in_ten:>7} in 10 {apart:>9.2} ns {ordered:>9.2} ns {listed:>9.2} ns");
    }
}
