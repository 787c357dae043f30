//! What a target answers to each command, for a table of targets: ask ADDRESS:PORT [SUBSYSTEM]. It prints a status for each,
//! and writes to the first 16 blocks of the disk, once by the library's driver.
use vandrexu::{RemoteHost, Reply};
use vandrexu_initiator::{Answer, BLOCK, Command, Dial, Host, Queue, Result, fabrics, opcode, u16_at};

fn told(answer: &Answer) -> String {
    let (kind, code) = answer.status().code();
    format!("{kind}/{code:02X}{}", if answer.status().is_final() { ", Do Not Retry" } else { "" })
}

fn say(what: &str, answer: &Answer) {
    println!("{what:24} {}", told(answer));
}

fn ask_admin(host: &mut Host) -> Result<()> {
    let controller = host.identify(1, 0)?.data;
    let at = |at| u16_at(&controller, at);
    println!("AWUN {} AWUPF {} ACWU {} FUSES {}", at(526), at(528), at(532), at(522));
    println!("ONCS {:04X} VWC {:02X} MDTS {}", at(520), controller[525], controller[77]);
    for form in [0x00, 0x01, 0x02, 0x03, 0x05, 0x06, 0x07, 0x08, 0x10, 0x11, 0x12, 0x13, 0x1A, 0x1C] {
        say(&format!("Identify {form:02X}"), &host.identify(form, 1)?);
    }
    for feature in [1, 2, 4, 5, 6, 7, 0x0A, 0x0B, 0x0F, 0x81, 0x84] {
        // (the Host Identifier has 16 bytes)
        let is_long = feature == 0x81;
        let get = Command::new(opcode::GET_FEATURES).with(1, 1).with(10, feature).with(11, is_long.into());
        say(&format!("Get Features {feature:02X}"), &host.admin.call(get, &[], if is_long { 16 } else { 0 })?);
    }
    for page in [0, 1, 2, 3, 4, 5, 0x0C, 0x70] {
        say(&format!("Get Log Page {page:02X}"), &host.log(page, if page == 2 { 512 } else { 4096 })?);
    }
    say("Keep Alive", &host.admin.call(Command::new(opcode::KEEP_ALIVE), &[], 0)?);
    say("Abort", &host.admin.call(Command::new(opcode::ABORT), &[], 0)?);
    say("admin opcode 0D", &host.admin.call(Command::new(0x0D), &[], 0)?);
    say("Fabrics 05", &host.admin.call(Command::fabrics(0x05), &[], 0)?);
    say("Property Get of 20h", &host.admin.call(Command::fabrics(fabrics::PROPERTY_GET).with(11, 0x20), &[], 0)?);
    Ok(())
}

fn ask_io(queue: &mut Queue) -> Result<()> {
    let one = [0xA1; BLOCK];
    for (name, opcode, data) in [
        ("Flush", opcode::FLUSH, &[][..]),
        ("Write", opcode::WRITE, &one),
        ("Read", opcode::READ, &[]),
        ("Compare", opcode::COMPARE, &one),
        ("Write Zeroes", opcode::WRITE_ZEROES, &[]),
        ("Verify", 0x0C, &[]),
        ("Copy", 0x19, &one[..32]),
    ] {
        let room = if opcode == opcode::READ { BLOCK } else { 0 };
        say(name, &queue.call(Command::blocks(opcode, 8, 1), data, room)?);
    }
    // (one range, to be deallocated)
    let dataset = Command::new(0x09).with(1, 1).with(11, 4);
    say("Dataset Management", &queue.call(dataset, &[0; 16], 0)?);
    let (first, _) = queue.send_pair(8, &[0; BLOCK], &one)?;
    for _ in 0..2 {
        let answer = queue.receive()?;
        let of = if answer.completion.cid() == first { "Compare of a pair" } else { "Write of a pair" };
        say(of, &answer);
    }
    Ok(())
}

fn main() -> std::result::Result<(), Box<dyn std::error::Error>> {
    let words: Vec<String> = std::env::args().skip(1).collect();
    let [address, rest @ ..] = &words[..] else { return Err("ask ADDRESS:PORT [SUBSYSTEM]".into()) };
    let mut dial = Dial { keep_alive: 60_000, ..Dial::to(address.parse()?) };
    if let Some(subsystem) = rest.first() {
        dial.subsystem.clone_from(subsystem);
    }
    let mut host = Host::connect(&dial, 1)?;
    ask_admin(&mut host)?;
    ask_io(&mut host.queues[0])?;
    let mut carrier = host.carrier(|queue| RemoteHost::new(1, queue, 0))?;
    let data: Vec<u8> = (0..8 * BLOCK).map(|it| (it % 251) as u8).collect();
    let write = carrier.driver().write(0, &data)?;
    let written = carrier.reply(write)?;
    let read = carrier.driver().read(0, 8)?;
    let is_same = written == Reply::Written && carrier.reply(read)? == Reply::Read(data);
    println!("{:24} {}", "Write and Read by driver", if is_same { "right" } else { "WRONG" });
    Ok(())
}
