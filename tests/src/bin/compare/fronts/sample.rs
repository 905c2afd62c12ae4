//! The front of the sample page: a grid of 3 by 3, tiles of 2 by 2, one Short `z` with the fill 7.

use gvrs_tests::second::front::Given;

use crate::run::Run;

const SAMPLE: &str = "sample: the front of the sample page, 336 bytes, checksum 0x32cb1941";

pub fn given() -> Given {
    Given {
        page: vec![3, 3, 2, 2, 1, 0],
        uuid: vec![0; 16],
        elements: vec![3, 0, 1, 0, 0, 0, 0, 0, 7, 0, 0, 0, 0, 0],
        texts: b"z".to_vec(),
    }
}

pub fn section(run: &mut Run) {
    run.fronts.want(SAMPLE);
    if let Some(Ok(front)) = run.front("sample", &given()) {
        if front.len() == 336 && front.ends_with(&0x32cb_1941_u32.to_le_bytes()) {
            run.fronts.reached(SAMPLE);
        }
    }
}
