//! The lines that the proved program `sheets` must print, from the plain decoder.

mod changed;
mod decoding;
mod verdicts;

#[test]
fn the_program_prints_what_the_plain_decoder_answers() {
    let lines = [decoding::lines(), verdicts::lines()].concat();
    let printed = include_str!("../../../../crates/sheets/stdout");
    for (line, printed) in lines.iter().zip(printed.lines()) {
        assert_eq!(line, printed);
    }
    assert_eq!(lines.len(), printed.lines().count());
}
