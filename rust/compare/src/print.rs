//! Prints a trial so that a person can follow and replay it.

use crate::call::{
    Call, Damage, Given, Image, LogCall, QueryCall, Recorded, Recording, Step, SwitchCall,
};
use crate::pair::{outcome_text, Pair};
use crate::second;
use musgarento::Packets;
use std::fmt::Write;

/// The most packets of a call and runs of bytes that are printed.
const MOST_PACKETS: usize = 8;
const MOST_RUNS: usize = 300;

/// The trial, with what the second model gives at each call.
pub fn trial_text(steps: &[Step]) -> String {
    let mut pair = Pair::new(&second::apply);
    let mut text = String::new();
    for (i, step) in steps.iter().enumerate() {
        let _ = writeln!(text, "{:4}  {}", i + 1, step_text(step, &pair));
        let Ok(Some(made)) = pair.step(step) else {
            continue;
        };
        let _ = writeln!(text, "        {}", outcome_text(&made.outcome));
        if made.call.sends_packets() {
            let count = made.outcome.count.unwrap_or(0);
            packets_text(&made.out[..count], &mut text);
        }
    }
    text
}

/// The first packets in these bytes, and how many more there are.
fn packets_text(bytes: &[u8], text: &mut String) {
    let mut packets = Packets::new(bytes);
    for packet in packets.by_ref().take(MOST_PACKETS) {
        let _ = writeln!(text, "        {packet}");
    }
    let more = packets.count();
    if more > 0 {
        let _ = writeln!(text, "        and {more} more");
    }
}

/// One step.
fn step_text(step: &Step, pair: &Pair<'_>) -> String {
    match step {
        Step::Call(call, room) => {
            let image = pair.image_of(call);
            let mut text = call_text(call);
            if call.has_output() {
                let length = pair.output_length(call, *room, &image);
                let _ = write!(text, ", output of {length} bytes");
            }
            text
        }
        Step::Length(part, length) => {
            format!("{}: length {length}, new bytes AA", part.name())
        }
        Step::Byte(part, at, value) => format!("{}: byte {at} := {value:02X}", part.name()),
        Step::Contents(part, bytes) => {
            let count = bytes.len();
            format!("{}: {count} bytes, {}", part.name(), bytes_text(bytes))
        }
    }
}

/// One call with its arguments.
fn call_text(call: &Call) -> String {
    match call {
        Call::Start(given) => start_text(given),
        &Call::ConfigRead { offset, width } => {
            format!("config read {offset:02X}h, width {}", number_text(width))
        }
        &Call::ConfigWrite {
            offset,
            width,
            value,
        } => {
            let width = number_text(width);
            format!("config write {offset:02X}h, width {width}, value {value:X}h")
        }
        &Call::BarRead { bar, offset, width } => {
            format!("BAR read, {}", place_text(bar, offset, width))
        }
        &Call::BarWrite {
            bar,
            offset,
            width,
            value,
        } => {
            let place = place_text(bar, offset, width);
            format!("BAR write, {place}, value {value:X}h")
        }
        &Call::Event(number) => format!("event {}", number_text(number)),
        &Call::Line(level) => format!("line {}", number_text(level)),
        Call::Reset => "reset".to_string(),
        Call::Save(number) => format!("save as image {number}"),
        Call::Restore(image) => format!("restore of {}", image_text(image)),
        &Call::Withdraw(vector) => format!("withdraw vector {}", number_text(vector)),
        Call::Switch(call) => switch_call_text(call),
        Call::Log(call) => log_call_text(call),
        Call::Query(call) => query_text(call),
    }
}

/// A question with what it is about.
fn query_text(call: &QueryCall) -> String {
    match call {
        QueryCall::ConfigLengths(config) => {
            let count = config.len();
            format!(
                "lengths of a configuration of {count} bytes, {}",
                bytes_text(config)
            )
        }
        QueryCall::ImageLengths(image) => format!("lengths of {}", image_text(image)),
        QueryCall::Packet(bytes) => {
            format!("first packet of {} bytes: {}", bytes.len(), hex_text(bytes))
        }
    }
}

/// One call of a player or of the recorder with its arguments.
fn log_call_text(call: &LogCall) -> String {
    match call {
        LogCall::Play(bytes) => format!("play {} bytes: {}", bytes.len(), hex_text(bytes)),
        LogCall::Begin => "begin a log".to_string(),
        LogCall::Record(recording) => recording_text(recording),
        LogCall::Trial(trial) => recorded_text(trial),
    }
}

fn recording_text(recording: &Recording) -> String {
    let &Recording {
        kind,
        bar,
        offset,
        width,
        value,
        refusal,
    } = recording;
    let kind = number_text(kind);
    let place = place_text(bar, offset, width);
    format!("record, kind {kind}, {place}, value {value:X}h, refusal {refusal}")
}

fn recorded_text(trial: &Recorded) -> String {
    let calls: Vec<String> = trial
        .calls
        .iter()
        .map(|(call, room)| format!("{} ({room})", call_text(call)))
        .collect();
    format!(
        "record (outputs) and play in pieces of {} bytes: {}",
        trial.piece,
        calls.join("; ")
    )
}

/// Bytes in hexadecimal.
fn hex_text(bytes: &[u8]) -> String {
    let bytes: Vec<String> = bytes.iter().map(|byte| format!("{byte:02X}")).collect();
    bytes.join(" ")
}

/// One call of a switch with its arguments.
fn switch_call_text(call: &SwitchCall) -> String {
    match call {
        SwitchCall::Start(requester) => format!("switch start, requester {requester:04X}h"),
        SwitchCall::Packet { port, packet } => {
            format!(
                "packet at port {}, {} bytes: {}",
                number_text(*port),
                packet.len(),
                hex_text(packet)
            )
        }
        SwitchCall::Down(port) => format!("port {} down", number_text(*port)),
    }
}

/// A number that is mostly small: decimal up to 16 bits, hexadecimal above.
fn number_text(number: u64) -> String {
    match number {
        0..=0xFFFF => number.to_string(),
        _ => format!("{number:X}h"),
    }
}

fn place_text(bar: u64, offset: u64, width: u64) -> String {
    let (bar, width) = (number_text(bar), number_text(width));
    format!("BAR {bar}, offset {offset:X}h, width {width}")
}

fn start_text(given: &Given) -> String {
    let sizes: Vec<String> = given
        .sizes
        .iter()
        .map(|size| format!("{size:X}h"))
        .collect();
    format!(
        "start, E {}, requester {:04X}h, sizes {}, configuration of {} bytes, {}",
        number_text(given.events),
        given.requester,
        sizes.join(" "),
        given.config.len(),
        bytes_text(&given.config)
    )
}

fn image_text(image: &Image) -> String {
    match image {
        Image::Bytes(bytes) => {
            format!("{} bytes, {}", bytes.len(), bytes_text(bytes))
        }
        Image::Kept(number, damage) => {
            let mut text = format!("image {number}");
            for change in damage {
                let _ = match change {
                    Damage::Byte(at, value) => write!(text, ", byte {at} := {value:02X}"),
                    Damage::Length(length) => write!(text, ", length {length}"),
                };
            }
            text
        }
    }
}

/// The bytes that are not 0, in runs of equal bytes with hexadecimal places.
fn bytes_text(bytes: &[u8]) -> String {
    let mut runs = Vec::new();
    let mut at = 0;
    for run in bytes.chunk_by(|a, b| a == b) {
        match run {
            [0, ..] => {}
            [byte] => runs.push(format!("[{at:02X}h] {byte:02X}")),
            [byte, ..] => runs.push(format!("[{at:02X}h] {} x {byte:02X}", run.len())),
            [] => {}
        }
        at += run.len();
    }
    let count = runs.len();
    if count == 0 {
        return "all 0".to_string();
    }
    runs.truncate(MOST_RUNS);
    let mut text = format!("0 but for {}", runs.join(" "));
    if count > MOST_RUNS {
        let _ = write!(text, " and {} more", count - MOST_RUNS);
    }
    text
}
