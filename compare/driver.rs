//! Compares every exported call with the Rust original; `compare/run` builds and runs it.
//!
//! Ours is the crates of compare/archives.txt, as `rt lib` compiles them. `pixelforge` has the Rust, with E7's two
//! constants, over the stand-ins of bench/. What is expected of a call is document 01's checks, written here in its order,
//! and where no number marked + applies the Rust's own answer: values, counts, refusals, and every buffer as it is after
//! the call.

mod calls;
mod curve;
mod curves;
mod damage;
mod draw;
mod drawn;
mod forms;
mod histories;
mod hosts;
mod inputs;
mod join;
mod journal;
mod layers;
mod lines;
mod locks;
mod need;
mod panel;
mod sample;
mod sheet;
mod sheets;
mod spell;
mod table;
mod tiled;

use journal::Form;
use std::sync::atomic::Ordering::Relaxed;
use std::time::Instant;

fn main() {
    if std::env::args().nth(1).as_deref() == Some("sample") {
        return sample::print();
    }
    let start = Instant::now();
    let mut t = table::Table::default();
    if std::env::args().nth(1).as_deref() == Some("need") {
        for form in Form::BOTH {
            t.form = form;
            need::run(&mut t);
        }
        need::programs(&mut t);
        t.print();
        return println!("{:.0} seconds.", start.elapsed().as_secs_f64());
    }
    inputs::run(&mut t);
    tiled::run(&mut t);
    histories::run(&mut t);
    locks::run(&mut t);
    curves::run(&mut t);
    layers::run(&mut t);
    join::run(&mut t);
    panel::run(&mut t);
    spell::run(&mut t);
    hosts::run(&mut t);
    t.form = Form::Places;
    histories::run(&mut t);
    locks::histories(&mut t);
    curves::histories(&mut t);
    layers::histories(&mut t);
    for form in Form::BOTH {
        t.form = form;
        forms::run(&mut t);
        need::run(&mut t);
    }
    need::programs(&mut t);
    let same = t.print();
    println!();
    println!(
        "Of the results along lines {} were judged by the Rust's own answer, {} by E4's rule.",
        lines::BY_RUST.load(Relaxed),
        lines::BY_RULE.load(Relaxed)
    );
    println!(
        "Beside the Rust's answers {} distances were held to compare/'s own dist2, bit for bit; {} of them are infinite.",
        sheets::DISTANCES.load(Relaxed),
        sheets::INFINITE.load(Relaxed)
    );
    let sound = damage::run();
    println!();
    println!("{:.0} seconds.", start.elapsed().as_secs_f64());
    if !(same && sound) {
        std::process::exit(1);
    }
}
