//! A desk that begins with no byte and gives as many as each answer asks for, no more.

use gvrs_tests::second::check::stages_1_to_5;

use crate::run::Run;

const SORT: &str = "as many bytes as are needed";
/// None, 16, 24 and the header.
const MOST_QUESTIONS: usize = 4;

/// The last answer's number.
pub fn desk(run: &mut Run, file: &[u8]) -> u32 {
    let length = file.len() as u64;
    let mut given = 0;
    for _ in 0..MOST_QUESTIONS {
        let answer = run.start(SORT, &file[..given], length);
        if answer.number != 16 {
            let stages = stages_1_to_5(file).map_or_else(|refusal| refusal, |_| (0, 0));
            if stages != (answer.number, answer.place) {
                run.fault(&format!("{SORT}: {answer:?}, stages 1 to 5 {stages:?}"), file);
            }
            return answer.number;
        }
        if answer.needed <= given as u64 || answer.needed > length {
            break;
        }
        given = answer.needed as usize;
    }
    run.fault(&format!("{SORT}: {given} given of {length}, still 16"), file);
    16
}
