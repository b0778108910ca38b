//! Reads an order as `pack` does, runs its batches by the original, and prints messages and bodies as `pack` does.
//!   ok of a plan: "message ..", "body ..";  "error COLUMN NODE TEXT" where the original refuses (the node counted in its column,
//!   of the array touched last);  "panic TEXT";  "nested" where a dictionary is not directly above another (not run);
//!   "misfit" where the columns are none (not run; the original gets them made).
//! Where the original refuses, its tracker is put back as it was (PUT_BACK=0: it is not).
use arrow_array::TOUCHED;
use arrow_buffer::Buffer;
use arrow_data::ArrayData;
use arrow_ipc::reach::{Access, Form, Reach, begin, end};
use arrow_ipc::writer::{DictionaryHandling, DictionaryTracker, IpcWriteContext, IpcWriteOptions};
use recorded::{Node, array, batch};
use std::collections::HashMap;
use std::panic::{AssertUnwindSafe, catch_unwind};

#[derive(Default)]
struct Case {
    name: String,
    nodes: Vec<Node>,
    bytes: Vec<u8>,
    align: usize,
    delta: bool,
    refuse: bool,
    calls: Vec<Vec<u64>>,
}

fn hex(b: &[u8]) -> String {
    if b.is_empty() {
        "-".into()
    } else {
        b.iter().map(|x| format!("{x:02x}")).collect()
    }
}

fn read(text: &str) -> Vec<Case> {
    let mut cases = vec![];
    for line in text.lines() {
        let line = line.split('#').next().unwrap();
        let w: Vec<&str> = line.split_whitespace().collect();
        let Some(&first) = w.first() else { continue };
        let nums = || w[1..].iter().map(|x| x.parse::<u64>().unwrap()).collect::<Vec<u64>>();
        if first == "case" {
            cases.push(Case {
                name: w[1].into(),
                align: 64,
                ..Default::default()
            });
            continue;
        }
        let c: &mut Case = cases.last_mut().unwrap();
        match first {
            "align" => c.align = nums()[0] as usize,
            "handling" => c.delta = w[1] == "delta",
            "error_on_replacement" => c.refuse = w[1] == "1",
            "node" => {
                let b: Vec<u8> = nums().iter().flat_map(|x| x.to_le_bytes()).collect();
                c.nodes.push(Node::of(&b))
            }
            "bytes" => {
                let h: String = w[1..].concat();
                if h != "-" {
                    for k in (0..h.len()).step_by(2) {
                        c.bytes.push(u8::from_str_radix(&h[k..k + 2], 16).unwrap())
                    }
                }
            }
            "id" => c.calls.push(vec![]),
            "plan" => c.calls.push(nums()),
            "collect" => {
                let mut n = nums();
                n.push(0);
                c.calls.push(n)
            } // a batch that is not shown
            x => panic!("line {x}"),
        }
    }
    cases
}
/// a dictionary that is above another, but not directly above
fn nested(nodes: &[Node], first: usize, last: usize) -> bool {
    (first..last).any(|i| {
        nodes[i].kind == 8 && nodes[i + 1].kind != 8 && (i + 1..i + nodes[i].span as usize).any(|j| nodes[j].kind == 8)
    })
}
fn columns(nodes: &[Node], call: &[u64]) -> Option<Vec<usize>> {
    let (mut p, mut v) = (call[0] as usize, vec![]);
    for _ in 0..call[1] {
        let n = nodes.get(p)?;
        if n.rows != call[2] {
            return None;
        }
        v.push(p);
        p += n.span as usize;
    }
    Some(v)
}
fn run(c: &Case, put_back: bool) {
    println!("case {}", c.name);
    // TAIL=1: buffers go on behind their last slot
    let tail = std::env::var_os("TAIL").is_some();
    let cut = |place: usize, len: usize| {
        let more = if tail { (c.bytes.len() - place - len) / 8 * 8 } else { 0 };
        Buffer::aligned(&c.bytes[place..place + len + more])
    };
    let mut made: HashMap<usize, ArrayData> = HashMap::new();
    let options = IpcWriteOptions::try_new(c.align, false, arrow_ipc::MetadataVersion::V5)
        .unwrap()
        .with_dictionary_handling(if c.delta {
            DictionaryHandling::Delta
        } else {
            DictionaryHandling::Resend
        });
    let mut tracker = DictionaryTracker::new(c.refuse);
    let mut context = IpcWriteContext::default();
    for call in &c.calls {
        if call.is_empty() {
            println!("id {}", tracker.next_dict_id());
            continue;
        }
        let Some(cols) = columns(&c.nodes, call) else {
            println!("misfit");
            continue;
        };
        let last = cols.last().map_or(0, |p| p + c.nodes[*p].span as usize);
        if nested(&c.nodes, call[0] as usize, last) {
            println!("nested");
            continue;
        }
        for p in &cols {
            if !made.contains_key(p) {
                made.insert(*p, array(&c.nodes, *p, &cut));
            }
        }
        let b = batch(cols.iter().map(|p| made[p].clone()).collect(), call[2] as usize);
        let before = Access.clone_tracker(&tracker);
        let mut out: Vec<u8> = vec![];
        begin(&Form::Numbers, 0);
        let result = catch_unwind(AssertUnwindSafe(|| {
            Access.batch_to_bytes(&b, &mut tracker, &options, &mut context, &mut out)
        }));
        let (log, missing) = end();
        match result {
            Ok(Ok(sizes)) => {
                assert!(!missing && log.len() == sizes.len());
                let mut at = 0;
                for (j, (d, (header, body))) in log.iter().zip(&sizes).enumerate() {
                    if call.len() == 4 {
                        at += header + body;
                        continue;
                    }
                    let kind = ["batch", "dictionary", "delta"][d.kind as usize];
                    let f: String = d.fields.iter().map(|p| format!(" ({},{})", p.0, p.1)).collect();
                    let u: String = d.buffers.iter().map(|p| format!(" ({},{})", p.0, p.1)).collect();
                    println!(
                        "message {j} kind {kind} id {} rows {} body {} fields{f} buffers{u}",
                        d.id, d.rows, d.body
                    );
                    println!("body {}", hex(&out[at + header..at + header + body]));
                    let frame = [&[0xffu8; 4][..], &(*header as u32 - 8).to_le_bytes(), &d.numbers()].concat();
                    assert!(out[at..].starts_with(&frame) && header % c.align == 0 && *body as i64 == d.body);
                    assert!(out[at + frame.len()..at + header].iter().all(|b| *b == 0));
                    at += header + body;
                }
                assert_eq!(at, out.len());
            }
            bad => {
                let node = TOUCHED.get() as usize;
                match bad {
                    Ok(Err(e)) => {
                        let column = cols.iter().rposition(|p| *p <= node).unwrap_or(99);
                        println!(
                            "error {column} {} {e}",
                            node.wrapping_sub(*cols.get(column).unwrap_or(&0))
                        )
                    }
                    Err(p) => println!(
                        "panic {}",
                        p.downcast_ref::<String>()
                            .cloned()
                            .or(p.downcast_ref::<&str>().map(|s| s.to_string()))
                            .unwrap_or_default()
                            .replace('\n', " ")
                    ),
                    _ => unreachable!(),
                }
                context = IpcWriteContext::default();
                if put_back {
                    tracker = before
                }
            }
        }
    }
}
fn main() {
    let text = std::fs::read_to_string(std::env::args().nth(1).expect("ORDER")).unwrap();
    std::panic::set_hook(Box::new(|_| {}));
    let put_back = std::env::var("PUT_BACK").map_or(true, |x| x != "0");
    for c in read(&text) {
        run(&c, put_back)
    }
}
