//! Scripts in which no frame mattered, or nearly all did, and scripts that end in fallback or never were in RUN.

use super::super::lines;
use super::super::stage::{Copies, Stage};
use super::start::{cycles, names, run};
use crate::module::registers::{OUT_REP, RELEASE};

/// Every frame comes twice, once on each port.
pub fn all_twice(stage: &mut Stage) {
    run(stage, &[2, 3], &[5, 9]);
    cycles(stage, 9);
}

/// So many cycles may pass without a sync that any one may be lost.
pub fn spare_syncs(stage: &mut Stage) {
    run(stage, &[4, 5, 9], &[9, 255]);
    stage.copies = Copies::Never;
    for _ in 0..3 + stage.random.below(12) {
        stage.begin_cycle();
    }
}

/// Hardly any frame comes twice.
pub fn plain(stage: &mut Stage) {
    stage.copies = stage.random.pick(&[Copies::Never, Copies::NowAndThen]);
    run(stage, &[2, 3], &[5, 9]);
    cycles(stage, 9);
}

/// By silence, by an order, by a wrong cycle.
pub fn fallback(stage: &mut Stage) {
    stage.copies = stage
        .random
        .pick(&[Copies::Always, Copies::Never, Copies::AlmostAlways]);
    run(stage, &[1, 2, 3], &[1, 2, 5]);
    cycles(stage, 4);
    stage.reach_fallback();
    if stage.random.one_in(3) {
        stage.begin_cycle();
    }
}

/// A SID is missing, or the release, or the sync behind it.
pub fn never_in_run(stage: &mut Stage) {
    match stage.random.below(3) {
        0 => stage.begin_cycle(),
        1 => {
            names(stage);
            stage.begin_cycle();
            stage.begin_cycle();
        }
        _ => {
            names(stage);
            stage.begin_cycle();
            stage.write(OUT_REP, &[RELEASE]);
        }
    }
}

pub fn nothing(_: &mut Stage) {}

pub fn bad_alone(stage: &mut Stage) {
    for _ in 0..1 + stage.random.below(4) {
        lines::bad(stage);
    }
}
