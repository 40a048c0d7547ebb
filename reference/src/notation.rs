//! The notation of programs, guards and conditional programs.
use crate::places::Place;
use crate::text::push_utf8;
use crate::tokens::*;
use crate::tree::*;

fn put_number(out: &mut Vec<u8>, x: i64) {
    out.extend_from_slice(x.to_string().as_bytes());
}
fn put_text(out: &mut Vec<u8>, t: &[char]) {
    out.push(b'\'');
    for c in t {
        if *c == '\'' || *c == '\\' {
            out.push(b'\\');
        }
        push_utf8(out, &[*c]);
    }
    out.push(b'\'');
}
fn put_seq(out: &mut Vec<u8>, s: Seq) {
    let (v, n) = seq_tokens(s);
    out.push(b'[');
    for i in 0..n {
        if i > 0 {
            out.push(b' ');
        }
        out.extend_from_slice(NAMES[v[i] as usize].as_bytes());
    }
    out.push(b']');
}
fn put_place(out: &mut Vec<u8>, p: &Place) {
    match *p {
        Place::CPos(k) => {
            out.extend_from_slice(b"CPos(");
            put_number(out, k as i64);
        }
        Place::Pos(a, b, c) => {
            out.extend_from_slice(b"Pos(");
            put_seq(out, a);
            out.push(b',');
            put_seq(out, b);
            out.push(b',');
            put_number(out, c as i64);
        }
    }
    out.push(b')');
}
fn put_source(out: &mut Vec<u8>, s: &Source) {
    match s {
        Source::Col(c) => {
            out.extend_from_slice(b"Col(");
            put_number(out, *c as i64);
        }
        Source::Select(s) => {
            out.extend_from_slice(b"Select(");
            put_number(out, s.column as i64);
            out.push(b',');
            put_number(out, s.table as i64);
            out.push(b',');
            put_number(out, s.key as i64);
            for c in &s.conditions {
                out.push(b',');
                put_atom(out, c);
            }
        }
    }
    out.push(b')');
}
fn put_atom(out: &mut Vec<u8>, a: &Atom) {
    match a {
        Atom::Const(t) => {
            out.extend_from_slice(b"Const(");
            put_text(out, t);
        }
        Atom::Whole(s) => {
            out.extend_from_slice(b"Whole(");
            put_source(out, s);
        }
        Atom::Sub(s, p, q) => {
            out.extend_from_slice(b"Sub(");
            put_source(out, s);
            out.push(b',');
            put_place(out, p);
            out.push(b',');
            put_place(out, q);
        }
    }
    out.push(b')');
}
pub fn put_program(out: &mut Vec<u8>, p: &Program) {
    out.extend_from_slice(b"Concat(");
    for (i, a) in p.atoms.iter().enumerate() {
        if i > 0 {
            out.push(b',');
        }
        put_atom(out, a);
    }
    out.push(b')');
}
fn put_literal(out: &mut Vec<u8>, l: &Literal) {
    if l.negated {
        out.push(b'!');
    }
    out.extend_from_slice(b"Match(");
    put_number(out, l.column as i64);
    out.push(b',');
    put_seq(out, l.seq);
    out.push(b',');
    put_number(out, l.least as i64);
    out.push(b')');
}
pub fn put_guard(out: &mut Vec<u8>, g: &Guard) {
    put_literal(out, &g.first);
    if let Some(l) = &g.second {
        out.push(b'&');
        put_literal(out, l);
    }
}
pub fn put_switch(out: &mut Vec<u8>, s: &Switch) {
    out.extend_from_slice(b"Switch(");
    for c in &s.cases {
        put_guard(out, &c.guard);
        out.extend_from_slice(b"=>");
        put_program(out, &c.program);
        out.push(b';');
    }
    out.extend_from_slice(b"else=>");
    put_program(out, &s.last);
    out.push(b')');
}
