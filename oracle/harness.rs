// The harness over the original: it reads a stream of cases, fills a GateModel from each circuit's records, one gate object for each gate
// number, and prints what the original answers: the model's text, or a run's energy and bad states by a fresh evaluator.
// A case is form (0 binary, 1 Ising), job (0 model, 1 run), count of values (2 bytes), length of the circuit (4 bytes), the circuit, and 8 bytes
// for each value, all little endian. A panic of the original is caught and said. A circuit that cannot be filled (a record that breaks the form, a
// gate that is not there, a division over a list that holds a gate which is not earlier, which the original could follow for ever) is said to be unfilled:
// the original has no record files, so it has no answer to those.
// Two words serve the speed benchmark: `fill` fills each GateModel and answers nothing more, and `adders N` places 1,019 full adders into the original's
// Qubo, N times.
#![allow(dead_code, unused_imports, clippy::all)]
#![no_main]
mod unicorn;

use std::cell::RefCell;
use std::collections::HashMap;
use std::io::{Read, Write};
use std::panic::{catch_unwind, AssertUnwindSafe};
use unicorn::bitblasting::{Gate, GateModel, GateRef, HashableGateRef};
use unicorn::qubot::{InputEvaluator, Qubit, Qubo, Qubot};
use unicorn::{HashableNodeRef, Node, NodeRef, NodeType};

thread_local! {
    static LISTED: RefCell<Vec<GateRef>> = const { RefCell::new(Vec::new()) };
}

// The one edit: the constraints in the order of their records.
pub fn in_list_order(map: &HashMap<HashableGateRef, bool>) -> Vec<(&HashableGateRef, &bool)> {
    LISTED.with(|l| {
        l.borrow()
            .iter()
            .map(|g| map.get_key_value(&HashableGateRef::from(g.clone())).unwrap())
            .collect()
    })
}

struct Record {
    kind: u8,
    byte1: u8,
    f: [usize; 3],
    nid: u64,
}

fn records(c: &[u8]) -> Option<Vec<Record>> {
    if c.len() % 16 != 0 {
        return None;
    }
    let two = |r: &[u8], i: usize| r[i] as usize + 256 * r[i + 1] as usize;
    Some(
        c.chunks(16)
            .map(|r| Record {
                kind: r[0],
                byte1: r[1],
                f: [two(r, 2), two(r, 4), two(r, 6)],
                nid: u64::from_le_bytes(r[8..16].try_into().unwrap()),
            })
            .collect(),
    )
}

fn node(nid: u64) -> NodeRef {
    NodeRef::from(Node::Const { nid, sort: NodeType::Word, imm: 0 })
}

// the gate of a record, from the gates before it
fn gate(gates: &[GateRef], all: &[Record], r: &Record) -> Option<Gate> {
    let at = |i: usize| gates.get(r.f[i]).cloned();
    Some(match r.kind {
        0 => Gate::ConstFalse,
        1 => Gate::ConstTrue,
        2 => Gate::InputBit { name: String::new() },
        3 => Gate::Not { value: at(0)? },
        4 => Gate::And { left: at(0)?, right: at(1)? },
        5 => Gate::Nand { left: at(0)?, right: at(1)? },
        6 => Gate::Or { left: at(0)?, right: at(1)? },
        7 => Gate::Matriarch1 { cond: at(0)?, right: at(1)? },
        8 => {
            let a = &all[r.f[0]];
            Gate::CarryHalfAdder { left: gates.get(a.f[0]).cloned()?, right: gates.get(a.f[1]).cloned()? }
        }
        9 => Gate::ResultHalfAdder { input1: at(0)?, input2: at(1)? },
        10 => {
            let a = &all[r.f[0]];
            Gate::CarryFullAdder {
                input1: gates.get(a.f[0]).cloned()?,
                input2: gates.get(a.f[1]).cloned()?,
                input3: gates.get(a.f[2]).cloned()?,
            }
        }
        11 => Gate::ResultFullAdder { input1: at(0)?, input2: at(1)?, input3: at(2)? },
        12 => Gate::Quotient { name: String::new(), index: r.byte1 as u32 },
        13 => Gate::Remainder { name: String::new(), index: r.byte1 as u32 },
        _ => return None,
    })
}

fn filled(c: &[u8]) -> Option<GateModel> {
    let all = records(c)?;
    let mut gates: Vec<GateRef> = Vec::new();
    let mut lists: Vec<Vec<GateRef>> = Vec::new();
    let mut latest: Vec<usize> = Vec::new();
    let mut model = GateModel {
        bad_state_gates: Vec::new(),
        bad_state_nodes: Vec::new(),
        constraints: HashMap::new(),
        input_gates: Vec::new(),
        mapping: HashMap::new(),
        mapping_adders: HashMap::new(),
        constraint_based_dependencies: HashMap::new(),
        witness: None,
    };
    let mut listed = Vec::new();
    let mut divisions: Vec<(usize, usize, usize)> = Vec::new();
    for r in all.iter() {
        match r.kind {
            0..=13 => {
                if (r.kind == 8 || r.kind == 10) && r.f[0] >= gates.len() {
                    return None;
                }
                let made = GateRef::from(gate(&gates, &all, r)?);
                if r.kind == 8 || r.kind == 10 {
                    model.mapping_adders.insert(HashableGateRef::from(made.clone()), gates[r.f[0]].clone());
                }
                if r.kind == 12 || r.kind == 13 {
                    divisions.push((gates.len(), r.f[0], r.f[1]));
                }
                gates.push(made);
            }
            20 => {
                while lists.len() <= r.f[0] {
                    lists.push(Vec::new());
                    latest.push(0);
                }
                lists[r.f[0]].push(gates.get(r.f[1])?.clone());
                latest[r.f[0]] = latest[r.f[0]].max(r.f[1]);
            }
            21 => {
                model.bad_state_gates.push(gates.get(r.f[0])?.clone());
                model.bad_state_nodes.push(node(r.nid));
            }
            22 => {
                let g = gates.get(r.f[0])?.clone();
                model.constraints.insert(HashableGateRef::from(g.clone()), r.byte1 == 1);
                listed.push(g);
            }
            23 => {
                while model.input_gates.len() <= r.f[0] {
                    model.input_gates.push((node(r.nid), Vec::new()));
                }
                let bit = gates.get(r.f[1])?.clone();
                model.input_gates[r.f[0]].1.push(bit);
            }
            _ => return None,
        }
    }
    let nodes: Vec<NodeRef> = lists.iter().map(|_| node(0)).collect();
    for (n, l) in nodes.iter().zip(lists.iter()) {
        model.mapping.insert(HashableNodeRef::from(n.clone()), l.clone());
    }
    for (n, a, b) in divisions {
        let pair = (nodes.get(a)?.clone(), nodes.get(b)?.clone());
        if latest[a] >= n || latest[b] >= n {
            return None;
        }
        model.constraint_based_dependencies.insert(HashableGateRef::from(gates[n].clone()), pair);
    }
    LISTED.with(|l| *l.borrow_mut() = listed);
    Some(model)
}

fn model_text(model: &GateModel, ising: bool) -> Option<Vec<u8>> {
    catch_unwind(AssertUnwindSafe(|| {
        let mut qubot = Qubot::new(model, ising);
        let bads = qubot.build_qubo();
        let mut out = Vec::new();
        qubot.dump_model(&mut out, bads).unwrap();
        out
    }))
    .ok()
}

fn run_text(model: &GateModel, ising: bool, values: &[i64]) -> Option<Vec<u8>> {
    catch_unwind(AssertUnwindSafe(|| {
        let mut qubot = Qubot::new(model, ising);
        let bads = qubot.build_qubo();
        let mut evaluator = InputEvaluator::new();
        let (energy, listed) =
            evaluator.evaluate_inputs(&qubot.qubo, &qubot.mapping, &model.input_gates, values, bads);
        let mut out = Vec::new();
        let form = if ising { "ising" } else { "binary" };
        writeln!(out, "energy {} {} halves {}", energy, form, (energy * 2.0) as i64).unwrap();
        for nid in listed {
            writeln!(out, "bad {}", nid).unwrap();
        }
        writeln!(out, "hit {}", if energy == 0.0 { "yes" } else { "no" }).unwrap();
        // what the original remembers: a qubit that it does not is a dot
        let names = evaluator.fixed_qubits.keys().map(|q| q.name).max().unwrap_or(1);
        write!(out, "values").unwrap();
        for name in 0..=names {
            match evaluator.fixed_qubits.get(&Qubit { name }) {
                Some(v) => write!(out, " {}", *v as u8).unwrap(),
                None => write!(out, " .").unwrap(),
            }
        }
        writeln!(out).unwrap();
        out
    }))
    .ok()
}

// The coefficients of a full adder, in the order in which the original's process_gate adds them.
fn add_full_adder(qubo: &mut Qubo, x: [Qubit; 3], z: Qubit, aux: Qubit, carry: Qubit) {
    let [x1, x2, x3] = x;
    for (q, c) in [(x1, 2.0), (x2, 2.0), (x3, 2.0), (z, 2.0), (aux, 4.0), (carry, 4.0)] {
        qubo.add_linear_coeff(q, c);
    }
    let pairs = [
        (x1, aux, -4.0),
        (x1, carry, -4.0),
        (x2, aux, -4.0),
        (x2, carry, -4.0),
        (x1, x2, 4.0),
        (x3, aux, 4.0),
        (x3, carry, -4.0),
        (z, aux, -4.0),
        (z, carry, 4.0),
        (z, x3, -4.0),
    ];
    for (p, q, c) in pairs {
        qubo.add_quadratic_coeffs(p, q, c);
    }
}

// The adders of crates/bench_place, at the same qubits. Prints how many pairs the model has.
fn place_adders(rounds: usize) {
    let mut pairs = 0;
    for _ in 0..rounds {
        let mut qubo = Qubo::new(false);
        for i in 0..1019u64 {
            let at = |n: u64| Qubit { name: n % 3065 };
            add_full_adder(&mut qubo, [at(i * 7), at(i * 11 + 1), at(i * 13 + 2)], at(i * 3 + 4), at(i * 3 + 2), at(i * 3 + 3));
        }
        pairs = qubo.quadratic_coefficients.values().map(|row| row.len()).sum::<usize>() / 2;
    }
    println!("{}", pairs);
}

// C's main: Rust's own start reads /proc/self/maps, at which the kit's emulator ends.
#[no_mangle]
pub extern "C" fn main() -> i32 {
    std::panic::set_hook(Box::new(|_| {}));
    let words: Vec<String> = std::env::args().skip(1).collect();
    if words.len() == 2 && words[0] == "adders" {
        place_adders(words[1].parse().unwrap());
        return 0;
    }
    let only_fill = words.len() == 1 && words[0] == "fill";
    let worker = std::thread::Builder::new().stack_size(1 << 30).spawn(move || answers(only_fill)).unwrap();
    worker.join().is_err() as i32
}

fn answers(only_fill: bool) {
    let mut input = Vec::new();
    std::io::stdin().read_to_end(&mut input).unwrap();
    let stdout = std::io::stdout();
    let mut out = std::io::BufWriter::new(stdout.lock());
    let mut at = 0;
    let mut number = 0;
    while at + 8 <= input.len() {
        let ising = input[at] == 1;
        let job = input[at + 1];
        let count = u16::from_le_bytes(input[at + 2..at + 4].try_into().unwrap()) as usize;
        let length = u32::from_le_bytes(input[at + 4..at + 8].try_into().unwrap()) as usize;
        at += 8;
        let circuit = &input[at..at + length];
        at += length;
        let values: Vec<i64> =
            input[at..at + 8 * count].chunks(8).map(|b| i64::from_le_bytes(b.try_into().unwrap())).collect();
        at += 8 * count;
        writeln!(out, "case {}", number).unwrap();
        number += 1;
        let said = match filled(circuit) {
            None => b"unfilled\n".to_vec(),
            Some(_) if only_fill => Vec::new(),
            Some(model) => {
                let text = if job == 0 { model_text(&model, ising) } else { run_text(&model, ising, &values) };
                text.unwrap_or_else(|| b"panic\n".to_vec())
            }
        };
        out.write_all(&said).unwrap();
    }
    out.flush().unwrap();
}
