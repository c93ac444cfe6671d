//! `j8_lines_write`.

use crate::run::{Entry, Outcome, Run};
use crate::strings::{in_rooms, Call};
use j8::raw;
use j8_inputs::damaged::family;
use j8_inputs::lines;
use j8_inputs::random::Random;
use j8_reference::lines::write_lines;

pub const WRITE: Entry = Entry {
    name: "lines_write",
    case: write,
    numbers: &[("lines_write", &[0, 1, 12])],
    edges: &[
        "no records",
        "a line of 1,024 bytes",
        "a payload of 65,535 bytes",
        "exact room",
        "one byte short",
        "no room",
    ],
};

fn write(random: &mut Random, run: &mut Run) -> Outcome {
    let mut records = lines::records(random);
    if random.once_in(3) {
        lines::damage(random, &mut records);
    }
    let other = lines::records(random);
    let tempting = b"\x00\x01\x02\x03\x04\xff\"'\\\n\x80\xc3\xed";
    for (at, records) in family(random, &records, &other, tempting)
        .iter()
        .enumerate()
    {
        let call: Call<_> = (raw::lines_write, write_lines);
        let most = 6 * records.len();
        let answer = in_rooms(random, run, "lines_write", call, records, most, at == 0)?;
        let one =
            answer.number == 0 && records.len() >= 4 && j8::Records::new(records).count() == 1;
        run.edge("no records", records.is_empty());
        run.edge("a line of 1,024 bytes", one && answer.length == 1_025);
        run.edge("a payload of 65,535 bytes", one && records.len() == 65_539);
    }
    Ok(())
}
