use sundewfrill_host::{ceiling, convert, Address, SCRATCH_LENGTH};

fn main() {
    let (mut output, mut scratch) = ([0; 32_768], [0; SCRATCH_LENGTH]);
    let (record, code, at) = (b"K1\xfe10\xfd20\xfe3", b"F;1;2R;*", Address::new(1, 0, 0));
    // 12,334: with the ceiling as its budget no conversion is refused for budget
    let budget = ceiling(record, code, at).unwrap_or(0);
    match convert(record, code, at, budget, &mut output, &mut scratch) {
        Ok(done) => println!(
            "{} of at most {budget} steps: {:?}",
            done.steps, done.answer
        ),
        Err(stopped) => println!("{stopped}"),
    }
}
