//! Commands of 3, 20 and 2,000 bytes, and the texts that they are read by.

use oracle::definition;
use oracle::definition::command::CommandDefinition;
use oracle::reading::command::{Offsets, decode_params};
use zniff_core::decoder::command_class::schema;

pub struct Command {
    pub name: &'static str,
    pub definition: CommandDefinition,
    pub text: Vec<u8>,
    pub payload: Vec<u8>,
}

/// These bytes, and others behind them, so many in all.
fn rest(first: &[u8], length: usize) -> Vec<u8> {
    let rest = (first.len()..length).map(|at| at as u8);
    first.iter().copied().chain(rest).collect()
}

/// A command that is one long group.
pub fn list(length: usize) -> Command {
    command("Command List Report", COMMAND_LIST_REPORT, rest(&[0x59, 0x06, 1], length))
}

pub fn commands() -> Vec<Command> {
    vec![
        command("Switch Binary Set", SWITCH_BINARY_SET, vec![0x25, 0x01, 0xFF]),
        command("Notification Report", NOTIFICATION_REPORT, {
            rest(&[0x71, 0x05, 0, 0, 0, 0xFF, 6, 22, 0x8A], 20)
        }),
        command("Firmware Update Report", FIRMWARE_UPDATE_REPORT, rest(&[0x7A, 0x06], 2_000)),
        list(2_000),
    ]
}

const SWITCH_BINARY_SET: &str = "Q|0|CONST|Switch Value|-|-/K|0|Off/K|255|On/";

const NOTIFICATION_REPORT: &str = "\
    Q|0|BYTE|V1 Alarm Type|-|-/\
    Q|0|BYTE|V1 Alarm Level|-|-/\
    Q|0|BYTE|Reserved|-|-/\
    Q|0|CONST|Notification Status|-|-/K|0|Off/K|254|No pending notifications/K|255|On/\
    Q|0|CONST|Notification Type|-|-/\
    K|1|Smoke/K|2|CO/K|3|CO2/K|4|Heat/K|5|Water/K|6|Access Control/K|7|Home Security/\
    Q|0|BYTE|Event|-|-/\
    Q|0|STRUCT_BYTE|Properties1|-|-/\
    S|31|-|Event Parameters Length/S|96|5|Reserved/T|128|Sequence/\
    Q|0|VARIANT|Event Parameter|-|-/R|6|31|-|0/\
    Q|0|BYTE|Sequence Number|6|128/";

/// One long field.
const FIRMWARE_UPDATE_REPORT: &str = "\
    Q|0|STRUCT_BYTE|Properties1|-|-/S|127|-|Report number 1/T|128|Last/\
    Q|0|BYTE|Report number 2|-|-/\
    Q|0|VARIANT|Data|-|-/R|255|0|-|0/";

/// One long group.
const COMMAND_LIST_REPORT: &str = "\
    Q|0|BYTE|Grouping Identifier|-|-/\
    Q|0|BYTE|List Length|-|-/\
    G|Command|255|0|0/\
    Q|1|BYTE|Command Class|-|-/\
    Q|1|STRUCT_BYTE|Command|-|-/S|31|-|Number/S|96|5|Reserved/T|128|Supported/";

fn command(name: &'static str, text: &str, payload: Vec<u8>) -> Command {
    let text = text.replace('|', "\t").replace('/', "\n").into_bytes();
    let definition = definition::read(&text).expect("an accepted text");
    Command { name, definition, text, payload }
}

impl Command {
    /// The definition as zniff-rs would have loaded it, with no other command beside it.
    pub fn loaded(&self) -> schema::ZwClasses {
        oracle::source::command::classes(&self.definition, self.payload[0], self.payload[1])
    }

    /// The same with the names of the K lines, which zniff-rs shows.
    pub fn named(&self) -> schema::ZwClasses {
        oracle::source::command::named_classes(&self.definition, self.payload[0], self.payload[1])
    }

    pub fn rows(&self) -> usize {
        decode_params(&self.definition, &self.payload, Offsets::Answered).expect("an answer").rows.len()
    }
}
