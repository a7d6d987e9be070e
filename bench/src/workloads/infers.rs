//! Infer of full files: of different shapes, under a full table, and under one that lacks nearly all types.
use super::checks;
use super::trees::inert;
use super::Workload;
use crate::programs::{Builder, Term};

pub fn all() -> Vec<Workload> {
    vec![
        Workload::infer("infer, balanced", &checks::balanced(), 2),
        Workload::infer("infer, 2,048 deep", &checks::deep(), 2),
        Workload::infer("infer, 256 types", &looked_up(), 256),
        Workload::infer("infer, 255 types appended", &checks::types(), 1),
    ]
}

/// A full file with 256 type entries in which seven of eight records are functions, whose types stand all over the table.
fn looked_up() -> Vec<u8> {
    let build = Builder::default();
    let root = (0..7).fold(inert(&build, 249, 0), |body, _| {
        let chain = functions(&build, 254);
        build.application(build.function(chain.written_type(), body), chain)
    });
    build.program(&root)
}

/// A curried function of so many numbers.
fn functions(build: &Builder, arity: u32) -> Term {
    (0..arity).fold(build.number(7), |body, _| build.function(build.nat(), body))
}
