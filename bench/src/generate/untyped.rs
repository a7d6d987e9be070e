//! Programs for infer: typed ones whose types are cleared, under their own table, a smaller or a larger one; damaged ones, and random bytes.
use super::layout::Draft;
use super::{damage, loose, tables};
use crate::random::Random;
use crate::reference::format::MAX_TYPES;
use crate::reference::{self, OUTPUT, WORK};

/// A program of any sort.
pub fn program(random: &mut Random) -> Vec<u8> {
    match random.weighted(&[36, 24, 12, 22, 2, 2, 2]) {
        0 => draft(random, 0).bytes(),
        1 => {
            let draft = draft(random, 0);
            damage::damaged(draft, &damage::UNTYPED_SORTS, random)
        }
        2 => {
            let slips = [2, 10, 50, 200][random.below(4)];
            draft(random, slips).bytes()
        }
        3 => loose(random).bytes(),
        4 => super::draft(random, 0).bytes(),
        5 => {
            let length = random.below(201);
            damage::random_bytes(length, random)
        }
        _ => damage::random_body(random),
    }
}

/// A program without types. It has types, if within 256 entries, unless so many of a thousand terms break a rule.
fn draft(random: &mut Random, slips: usize) -> Draft {
    let mut draft = super::draft(random, slips);
    clear(&mut draft);
    change_table(&mut draft, 35, random);
    draft
}

fn loose(random: &mut Random) -> Draft {
    let mut draft = loose::draft(random);
    change_table(&mut draft, 70, random);
    draft
}

fn clear(draft: &mut Draft) {
    for record in &mut draft.records {
        record.ty = 0;
    }
}

/// Leaves out entries that no binder needs (none, from a place on, at random or all), and in so many of a hundred tables adds others.
fn change_table(draft: &mut Draft, fills: usize, random: &mut Random) {
    let length = random.between(1, draft.types.len());
    match random.below(4) {
        0 => {}
        1 => tables::cut(draft, |place| place < length),
        2 => tables::cut(draft, |_| random.percent(50)),
        _ => tables::cut(draft, |_| false),
    }
    if random.percent(fills) {
        let count = filled_length(draft, random);
        tables::fill(draft, count, random.percent(50), random);
    }
}

/// A length for the table: full, any, or such that just all missing types fit, or some do not.
fn filled_length(draft: &Draft, random: &mut Random) -> usize {
    let missing = missing(draft);
    let brink = MAX_TYPES - missing;
    [MAX_TYPES, random.between(draft.types.len(), MAX_TYPES), brink, brink + 1, brink + random.below(missing + 1)][random.below(5)].min(MAX_TYPES)
}

/// How many entries infer appends to the table; 0 where it refuses the program.
fn missing(draft: &Draft) -> usize {
    let mut output = [0; OUTPUT];
    match reference::infer(&draft.bytes(), &mut output, &mut [0; WORK]) {
        Ok(_) => usize::from(u16::from_le_bytes([output[0], output[1]])) - draft.types.len(),
        Err(_) => 0,
    }
}

#[cfg(test)]
mod tests {
    use super::*;
    use crate::reference::format::{kind, NAT};
    use crate::reference::Refusal;

    fn infer(draft: &Draft) -> Result<usize, Refusal> {
        reference::infer(&draft.bytes(), &mut [0; OUTPUT], &mut [0; WORK]).map(|inferred| inferred.written)
    }

    #[test]
    fn drafts_without_slips_have_types_but_for_the_limit() {
        let drafts = || {
            let (mut typed, mut beyond) = (0, 0);
            for input in 0..1_000 {
                let draft = draft(&mut Random::of_input(7, input), 0);
                match infer(&draft) {
                    Ok(_) => typed += 1,
                    Err(Refusal { number: 14, .. }) => beyond += 1,
                    Err(refusal) => panic!("input {input}: {refusal:?}"),
                }
            }
            assert!(typed > 500 && beyond > 20, "{typed} have types, {beyond} would need more entries");
        };
        let worker = std::thread::Builder::new().stack_size(64 << 20).spawn(drafts);
        worker.expect("a thread can be started").join().expect("all drafts have types");
    }

    #[test]
    fn lifts_of_no_number_stand_under_full_tables_without_their_type() {
        let breaks_both = |draft: &Draft| match infer(draft) {
            Err(Refusal { number: 12, place }) => {
                let is_lift = draft.records[place as usize - 1].kind == kind::LIFT;
                is_lift && draft.types.len() == MAX_TYPES && !draft.types.contains(&[3, NAT, 0])
            }
            _ => false,
        };
        let found = (0..5_000).filter(|&input| breaks_both(&loose(&mut Random::of_input(7, input)))).count();
        assert!(found > 5, "12 and 14 hold of one record in {found} programs");
    }
}
