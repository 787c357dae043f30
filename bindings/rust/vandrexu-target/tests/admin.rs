//! Each Fabrics and admin command.
mod common;
use common::{DONE, code, dial, host, options, start, until};
use vandrexu_initiator::{Command, Dial, Error, Host, Queue, Status, fabrics, opcode, u16_at, u32_at, u64_at};
use vandrexu_target::Options;

#[test]
fn identify_tells_what_the_configuration_says() {
    let config = vandrexu::Config::of_line("config 4096 3 1 15 2 16 64 64 64").unwrap();
    let target = start(Options { config, ..options() });
    let mut host = host(&target, 1);
    let controller = host.identify(0x01, 0).unwrap().data;
    let at = |at| u16_at(&controller, at);
    assert_eq!((at(526), at(528), at(532)), (3, 0, 1), "AWUN, AWUPF, ACWU");
    assert_eq!((at(520) & 9, at(522), controller[525] & 1), (9, 1, 0), "ONCS, FUSES, VWC");
    assert_eq!((controller[77], at(78), controller[111]), (5, host.controller, 1));
    assert_eq!(&controller[768..797], b"nqn.2026-11.org.vandrexu:disk");
    let namespace = host.identify(0x00, 1).unwrap().data;
    let at = |at| u16_at(&namespace, at);
    assert_eq!(u64_at(&namespace, 0), 4096);
    assert_eq!((at(34), at(38), at(40), at(42), namespace[130]), (3, 1, 15, 2, 9));
    assert_eq!(code(&host.identify(0x00, 2).unwrap()), (0, 0x0B));
    // (active ones, those of the NVM command set, allocated ones, and those of both)
    for form in [0x02, 0x07, 0x10, 0x1A] {
        let first = [0, 1].map(|above| u32_at(&host.identify(form, above).unwrap().data, 0));
        assert_eq!(first, [1, 0], "form {form:02X}");
        assert_eq!(code(&host.identify(form, u32::MAX).unwrap()), (0, 0x0B), "form {form:02X}");
    }
    for (form, namespace) in [(0x03, 1), (0x05, 1), (0x06, 0), (0x08, 1), (0x11, 1), (0x12, 1), (0x13, 0), (0x1C, 0)] {
        assert_eq!(code(&host.identify(form, namespace).unwrap()), DONE, "form {form:02X}");
    }
    let unknown = host.identify(0x77, 1).unwrap().status();
    assert_eq!((unknown.code(), unknown.is_final()), ((0, 2), true));
}

#[test]
fn log_pages_are_as_long_as_is_asked_and_begin_where_is_asked() {
    let target = start(options());
    let mut host = host(&target, 0);
    for page in [0x00, 0x01, 0x02, 0x03, 0x04, 0x05] {
        let answer = host.log(page, 512).unwrap();
        assert_eq!((code(&answer), answer.data.len()), (DONE, 512), "page {page:02X}");
    }
    let effects = host.log(0x05, 4096).unwrap().data;
    assert_eq!((effects[1024 + 4], effects[1024 + 8], effects[1024 + 36]), (3, 1, 0));
    let from = Command::new(opcode::GET_LOG_PAGE).with(10, 0x05 | 255 << 16).with(12, 1024);
    assert_eq!(host.admin.call(from, &[], 1024).unwrap().data, effects[1024..2048]);
    assert_eq!(code(&host.admin.call(from.with(12, 3), &[], 1024).unwrap()), (0, 2));
    assert_eq!(code(&host.log(0x70, 512).unwrap()), (1, 9));
}

#[test]
fn features_are_set_and_told() {
    let target = start(options());
    let mut host = host(&target, 0);
    let mut call = |opcode, feature: u32, value| {
        let answer = host.admin.call(Command::new(opcode).with(10, feature).with(11, value), &[], 16).unwrap();
        (code(&answer), answer.completion.result())
    };
    for (feature, value) in [(0x01, 3), (0x0A, 1), (0x0B, 0x100), (0x0F, 60_000)] {
        assert_eq!(call(opcode::SET_FEATURES, feature, value), (DONE, 0));
        assert_eq!(call(opcode::GET_FEATURES, feature, 0), (DONE, value.into()));
        assert_eq!(call(opcode::GET_FEATURES, feature | 1 << 8, 0), (DONE, 0), "its default");
        assert_eq!(call(opcode::GET_FEATURES, feature | 3 << 8, 0), (DONE, 4), "changeable");
        assert_eq!(call(opcode::SET_FEATURES, feature | 1 << 31, value).0, (1, 0x0D));
    }
    assert_eq!(call(opcode::SET_FEATURES, 0x06, 1).0, (0, 2), "no volatile write cache");
    assert_eq!(call(opcode::SET_FEATURES, 0x81, 1).0, (0, 0x0C));
    assert_eq!(call(opcode::GET_FEATURES, 0x81, 1).0, DONE);
    assert_eq!(call(opcode::SET_FEATURES, 0x07, 3 << 16 | 2), (DONE, 2 << 16 | 2));
    assert_eq!(call(opcode::GET_FEATURES, 0x07, 0), (DONE, 2 << 16 | 2));
    for none in [0xFFFF, 0xFFFF_0000, u32::MAX] {
        assert_eq!(call(opcode::SET_FEATURES, 0x07, none).0, (0, 2), "{none:08X}");
    }
    assert_eq!(call(opcode::GET_FEATURES, 0x07, 0), (DONE, 2 << 16 | 2), "it is as it was");
    host.add_queue(1).unwrap();
    assert!(matches!(host.ask_for_queues(3), Err(Error::Refused(it, _)) if it.code() == (0, 0x0C)), "one is there");
}

#[test]
fn each_admin_connection_has_a_controller_of_its_own() {
    let target = start(options());
    let mut all: Vec<Host> = ["one", "two", "two"].map(|it| Host::connect(&dial(&target).named(it), 1).unwrap()).into();
    let numbers: Vec<u16> = all.iter().map(|it| it.controller).collect();
    assert!(numbers[0] < numbers[1] && numbers[1] < numbers[2], "{numbers:?}");
    let listed = |it: &mut Host| {
        let list = it.identify(0x13, 0).unwrap().data;
        (1..=usize::from(u16_at(&list, 0))).map(|at| u16_at(&list, 2 * at)).collect::<Vec<_>>()
    };
    for host in &mut all {
        assert_eq!(u16_at(&host.identify(0x01, 0).unwrap().data, 78), host.controller);
        assert_eq!(listed(host), numbers);
    }
    // what one host sets the others don't have
    let events = Command::new(opcode::SET_FEATURES).with(10, 0x0B).with(11, 0x100);
    assert_eq!(code(&all[1].admin.call(events, &[], 0).unwrap()), DONE);
    let get = Command::new(opcode::GET_FEATURES).with(10, 0x0B);
    let told: Vec<u64> = all.iter_mut().map(|it| it.admin.call(get, &[], 0).unwrap().completion.result()).collect();
    assert_eq!(told, [0, 0x100, 0]);
    all.remove(1);
    until("it left", || target.connections() == 4);
    assert_eq!(listed(&mut all[0]), [numbers[0], numbers[2]]);
}

#[test]
fn each_opcode_is_answered_and_no_connection_ends() {
    let target = start(options());
    let mut host = host(&target, 1);
    for opcode in 0..=u8::MAX {
        // (an Asynchronous Event Request is held)
        if opcode != opcode::ASYNC_EVENT {
            host.admin.call(Command::new(opcode), &[], 4096).unwrap();
        }
        let is_outgoing = matches!(opcode, opcode::WRITE | opcode::COMPARE);
        let (data, room) = if is_outgoing { (&[0; 512][..], 0) } else { (&[][..], 4096) };
        host.queues[0].call(Command::new(opcode).with(1, 1), data, room).unwrap();
    }
    assert_eq!(code(&host.identify(0x01, 0).unwrap()), DONE);
    assert_eq!(code(&host.queues[0].call(Command::blocks(opcode::FLUSH, 0, 0), &[], 0).unwrap()), DONE);
}

#[test]
fn a_host_that_asks_for_more_queues_than_there_are_gets_fewer() {
    let target = start(options());
    let first = host(&target, 10);
    assert_eq!(first.queues.len(), 10);
    let second = Host::connect(&dial(&target).named("second"), 10).unwrap();
    assert_eq!(second.queues.len(), 6);
    let third = Host::connect(&dial(&target).named("third"), 1);
    assert!(matches!(third, Err(Error::Refused(it, _)) if it.is(Status::CONNECT_BUSY)), "{third:?}");
    drop(first);
    until("the first left", || target.connections() == 7);
    assert_eq!(Host::connect(&dial(&target).named("third"), 12).unwrap().queues.len(), 10);
}

#[test]
fn events_are_held_and_other_commands_answered() {
    let target = start(options());
    let mut host = host(&target, 0);
    for _ in 0..4 {
        host.admin.send(Command::new(opcode::ASYNC_EVENT), &[], 0).unwrap();
    }
    let fifth = host.admin.call(Command::new(opcode::ASYNC_EVENT), &[], 0).unwrap();
    assert_eq!(code(&fifth), (1, 5));
    let mut status = |opcode| code(&host.admin.call(Command::new(opcode), &[], 0).unwrap());
    assert_eq!(status(opcode::KEEP_ALIVE), DONE);
    assert_eq!(status(opcode::ABORT), DONE);
    for unknown in [0x00, 0x01, 0x04, 0x05, 0x0D, 0x10, 0x11, 0x80, 0x81, 0x82, 0xC0] {
        assert_eq!(status(unknown), (0, 1), "opcode {unknown:02X}");
    }
    assert_eq!(host.admin.in_flight(), 4);
}

#[test]
fn properties_are_of_their_widths() {
    let target = start(options());
    let mut host = host(&target, 0);
    assert_eq!(host.property(0x00, true).unwrap() & 0xFFFF, 63, "MQES");
    assert_eq!(host.property(0x08, false).unwrap(), 0x1_0400);
    assert_eq!(host.property(0x1C, false).unwrap(), 1);
    for (offset, is_wide) in [(0x00, false), (0x08, true), (0x20, false), (0x1000, true)] {
        assert!(matches!(host.property(offset, is_wide), Err(Error::Refused(it, _)) if it.code() == (0, 2)));
    }
    assert!(host.set_property(0x08, 1).is_err());
    host.set_property(0x14, 0x0046_4001).unwrap();
    assert_eq!(host.property(0x1C, false).unwrap(), 0x9, "shut down");
}

#[test]
fn a_controller_that_is_disabled_has_no_queues() {
    let target = start(options());
    let mut host = host(&target, 2);
    host.set_property(0x14, 0).unwrap();
    assert!(host.queues[0].call(Command::blocks(opcode::FLUSH, 0, 0), &[], 0).is_err());
    assert_eq!(code(&host.identify(1, 0).unwrap()), (0, 0x0C));
    assert!(matches!(host.add_queue(1), Err(Error::Refused(it, _)) if it.code() == (0, 0x0C)));
    host.set_property(0x14, 0x0046_0001).unwrap();
    host.queues.clear();
    host.add_queue(1).unwrap();
    assert_eq!(code(&host.queues[0].call(Command::blocks(opcode::FLUSH, 0, 0), &[], 0).unwrap()), DONE);
}

/// What Connect of a queue is answered: the status, and the field that is told.
fn connect(dial: &Dial, qid: u16, controller: u16) -> ((u8, u8), u64) {
    let answer = Queue::open(dial).unwrap().connect(dial, qid, controller).unwrap();
    (code(&answer), answer.completion.result())
}

#[test]
fn connect_says_what_is_wrong() {
    let target = start(options());
    let host = host(&target, 1);
    let dial = dial(&target);
    assert_eq!(connect(&Dial { subsystem: "nqn.other".into(), ..dial.clone() }, 0, 0xFFFF), ((1, 0x82), 1 << 16 | 256));
    assert_eq!(connect(&Dial { slots: 1, ..dial.clone() }, 0, 0xFFFF), ((1, 0x82), 44));
    assert_eq!(connect(&dial, 0, 7), ((1, 0x82), 1 << 16 | 16), "a static controller");
    assert_eq!(connect(&dial, 2, 0x77), ((1, 0x82), 1 << 16 | 16), "no such controller");
    assert_eq!(connect(&dial, 17, host.controller), ((1, 0x82), 42), "no such queue");
    assert_eq!(connect(&dial, 1, host.controller), ((0, 0x0C), 0), "it is connected");
    assert_eq!(connect(&dial.clone().named("nqn.other"), 2, host.controller), ((1, 0x84), 0));
    assert_eq!(connect(&Dial { slots: 65, ..dial.clone() }, 2, host.controller), ((1, 0x82), 44));
    let mut early = Queue::open(&dial).unwrap();
    assert_eq!(code(&early.call(Command::new(opcode::IDENTIFY), &[], 4096).unwrap()), (0, 0x0C));
    assert_eq!(code(&early.call(Command::fabrics(fabrics::PROPERTY_GET), &[], 0).unwrap()), (0, 0x0C));
}

#[test]
fn what_waits_behind_connect_is_of_the_queue_that_it_makes() {
    let target = start(options());
    let host = host(&target, 1);
    // (its data is asked for, so the next command is there before it is served)
    let by_r2t = Dial { in_capsule: 0, ..dial(&target) };
    let mut queue = Queue::open(&by_r2t).unwrap();
    queue.send_connect(&by_r2t, 2, host.controller).unwrap();
    let flush = queue.send(Command::blocks(opcode::FLUSH, 0, 0), &[], 0).unwrap();
    let identify = queue.send(Command::new(opcode::IDENTIFY), &[], 4096).unwrap();
    let answers = [0, 1, 2].map(|_| queue.receive().unwrap());
    let of = |cid| answers.iter().find(|it| it.completion.cid() == cid).map(code);
    assert_eq!((code(&answers[0]), of(flush), of(identify)), (DONE, Some(DONE), Some((0, 1))));
}

#[test]
fn disconnect_and_unknown_fabrics_commands_are_answered() {
    let target = start(options());
    let mut host = host(&target, 1);
    let disconnect = Command::fabrics(fabrics::DISCONNECT);
    assert_eq!(code(&host.admin.call(disconnect, &[], 0).unwrap()), (1, 0x85));
    assert_eq!(code(&host.queues[0].call(disconnect, &[], 0).unwrap()), DONE);
    for kind in [0x05, 0x06, 0x77] {
        assert_eq!(code(&host.admin.call(Command::fabrics(kind), &[], 0).unwrap()), (0, 2));
        assert_eq!(code(&host.queues[0].call(Command::fabrics(kind), &[], 0).unwrap()), (0, 2));
    }
}

#[test]
fn the_discovery_controller_tells_the_subsystem() {
    let target = start(options());
    let found = Host::discover(&dial(&target)).unwrap();
    let port = target.address().port().to_string();
    assert_eq!(found, [("nqn.2026-11.org.vandrexu:disk".to_string(), port)]);
    let dial = Dial { subsystem: vandrexu_initiator::DISCOVERY.into(), ..dial(&target) };
    let mut host = Host::admin_only(&dial).unwrap();
    assert_eq!(host.identify(1, 0).unwrap().data[111], 2);
    assert_eq!(code(&host.identify(0, 1).unwrap()), (0, 2));
    assert!(matches!(host.add_queue(1), Err(Error::Refused(it, _)) if it.is(Status::CONNECT_HOST)));
}
