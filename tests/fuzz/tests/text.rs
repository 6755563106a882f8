//! The text form of cases.

use fuzz::{case, parse, write, Malformed, Operation};
use reference::{v1, Registered};

#[test]
fn round_trip() {
    for number in 0..3_000 {
        let case = case(3, number);
        assert_eq!(parse(&write(&case, "")), Ok(case.clone()));
        assert_eq!(parse(&write(&case, "what it is about")), Ok(case));
    }
}

/// The form stays as it is: files of earlier searches must replay.
#[test]
fn every_operation_by_hand() {
    let table = "07".repeat(136);
    let text = format!(
        "mednukals fuzz case, version 1\n\
        # about\n\
        memory number=0x1f\n\
        \n\
        checksum start=0x1234 bytes=00ff\n\
        flip crc=0x4e19 after=18446744073709551615 flips=10\n\
        encode id=254 instruction=0x03 room=40 at=18446744073709551615 params=\n\
        encode_v1 protocol=p1 id=253 instruction=0x03 room=40 at=2 params=1e\n\
        encode_v1 protocol=mercury id=252 instruction=0x01 room=6 at=0 params=\n\
        unstuff room=3 body=fffffdfd\n\
        plain from=18446744073709551615 segment=fffffd\n\
        log room=1050 lengths=0a000000ffffffff bytes=07\n\
        ask id=253 log=01000000\n\
        salvage room=1067 report=5 log=0200\n\
        plan room=30 goals=07000000\n\
        check goals=ffffffff plan=\n\
        record count=1031 past=0x07 held=ff\n\
        scribble byte=0x2a\n\
        feed chunk=ff\n\
        rest\n\
        arrive chunk=\n\
        gap\n\
        finish\n\
        record_v1 protocol=mercury count=259 past=0x07 held=ff\n\
        feed_v1 chunk=ffff01\n\
        arrive_v1 chunk=\n\
        gap_v1\n\
        board reply=32 table=0604\n\
        registered address=104 count=4 bytes=c800000000000000 min=-1 max=4095\n\
        status room=32 slot=7 speaks=255 id=252 error=0x87 count=8 bytes=fffffd0000000000\n\
        poke address=64 byte=0x01\n\
        fresh\n\
        measure position=-166 error=0x80\n\
        hear kind=1 id=1 body=01\n\
        receive room=5 packet=fffffd0001\n\
        exchange chunk=fffffd00\n\
        silence\n\
        board_record count=1031 past=0xa5 held=ff table={table} address=104 write=9 bytes=c800000000000000 min=-1 max=4095\n\
        board_feed chunk=ff\n\
        board_arrive chunk=\n\
        board_gap\n\
        board_finish\n\
        board_measure position=-166 error=0x80\n"
    );
    let case = parse(&text).expect("the text is a case");
    assert_eq!(case.memory, 0x1F);
    let wanted = [
        Operation::Checksum { start: 0x1234, bytes: vec![0, 0xFF] },
        Operation::Flip { crc: 0x4E19, after: usize::MAX, flips: vec![0x10] },
        Operation::Encode { id: 254, instruction: 3, room: 40, at: usize::MAX, params: vec![] },
        Operation::EncodeV1 { protocol: v1::Protocol::P1, id: 253, instruction: 3, room: 40, at: 2, params: vec![0x1E] },
        Operation::EncodeV1 { protocol: v1::Protocol::Mercury, id: 252, instruction: 1, room: 6, at: 0, params: vec![] },
        Operation::Unstuff { room: 3, body: vec![0xFF, 0xFF, 0xFD, 0xFD] },
        Operation::Plain { from: usize::MAX, segment: vec![0xFF, 0xFF, 0xFD] },
        Operation::LogWrite { room: 1_050, lengths: vec![10, u32::MAX], bytes: vec![7] },
        Operation::Ask { id: 253, log: vec![1, 0, 0, 0] },
        Operation::Salvage { room: 1_067, report: 5, log: vec![2, 0] },
        Operation::Plan { room: 30, goals: vec![7, 0, 0, 0] },
        Operation::Check { goals: vec![0xFF, 0xFF, 0xFF, 0xFF], plan: vec![] },
        Operation::Record { count: 1_031, past: 7, held: vec![0xFF] },
        Operation::Scribble { byte: 42 },
        Operation::Feed { chunk: vec![0xFF] },
        Operation::Rest,
        Operation::Arrive { chunk: vec![] },
        Operation::Gap,
        Operation::Finish,
        Operation::RecordV1 { protocol: v1::Protocol::Mercury, count: 259, past: 7, held: vec![0xFF] },
        Operation::FeedV1 { chunk: vec![0xFF, 0xFF, 1] },
        Operation::ArriveV1 { chunk: vec![] },
        Operation::GapV1,
        Operation::Board { reply: 32, table: vec![6, 4] },
        Operation::Registered { address: 104, count: 4, bytes: [200, 0, 0, 0, 0, 0, 0, 0], min: -1, max: 4095 },
        Operation::Status {
            room: 32,
            slot: 7,
            speaks: 255,
            id: 252,
            error: 0x87,
            count: 8,
            bytes: [0xFF, 0xFF, 0xFD, 0, 0, 0, 0, 0],
        },
        Operation::Poke { address: 64, byte: 1 },
        Operation::Fresh,
        Operation::Measure { position: -166, error: 0x80 },
        Operation::Hear { kind: 1, id: 1, body: vec![1] },
        Operation::Receive { room: 5, packet: vec![0xFF, 0xFF, 0xFD, 0, 1] },
        Operation::Exchange { chunk: vec![0xFF, 0xFF, 0xFD, 0] },
        Operation::Silence,
        Operation::BoardRecord {
            count: 1_031,
            past: 0xA5,
            held: vec![0xFF],
            table: [7; 136],
            registered: Registered { address: 104, count: 9, bytes: [200, 0, 0, 0, 0, 0, 0, 0], min: -1, max: 4095 },
        },
        Operation::BoardFeed { chunk: vec![0xFF] },
        Operation::BoardArrive { chunk: vec![] },
        Operation::BoardGap,
        Operation::BoardFinish,
        Operation::BoardMeasure { position: -166, error: 0x80 },
    ];
    assert_eq!(case.operations, wanted);
    assert_eq!(write(&case, "about"), text.replace("\n\n", "\n"));
}

#[test]
fn malformed_texts() {
    let long = format!("record count=0 past=0 held={}", "00".repeat(1_031));
    for (line, why) in [
        ("chekcsum start=0 bytes=", "there is no operation `chekcsum`"),
        ("checksum bytes=00", "`start=..` is expected, and not `bytes=00`"),
        ("checksum start=0", "`checksum` lacks `bytes=..`"),
        ("checksum start=65536 bytes=", "`start` is too large: 65536"),
        ("checksum start=0x bytes=", "`start` is no number: `0x`"),
        ("checksum start=-1 bytes=", "`start` is no number: `-1`"),
        ("checksum start=0 bytes=0", "`bytes` has an odd number of digits: 1"),
        ("checksum start=0 bytes=0g", "`bytes` has something that is no byte in hex"),
        ("checksum start=0 bytes=+1", "`bytes` has something that is no byte in hex"),
        ("gap now", "`gap` has a field too many: `now`"),
        ("registered address=0 count=0 bytes=00 min=0 max=0", "`bytes` has 1 bytes, and not 8"),
        ("board reply=99999999 table=", "`reply` is above 16777216: 99999999"),
        ("measure position=2147483648 error=0", "`position` is no number of four bytes: `2147483648`"),
        (&long, "`held` has 1031 bytes, and a record 1030"),
        ("board_record count=0 past=0 held= table=07", "`table` has 1 bytes, and not 136"),
    ] {
        let text = format!("mednukals fuzz case, version 1\nmemory number=0\ngap\n# and then\n{line}\ngap\n");
        assert_eq!(parse(&text), Err(Malformed { line: 5, why: why.to_string() }));
    }
}

#[test]
fn malformed_beginnings() {
    let version = "mednukals fuzz case, version 1";
    for (text, line) in [
        ("", 1),
        ("gap\n", 1),
        ("mednukals fuzz case, version 2\nmemory number=0\n", 1),
        (version, 2),
        (&format!("{version}\n\ngap\n"), 3),
        (&format!("{version}\nmemory\n"), 2),
        (&format!("{version}\nmemory number=0 number=1\n"), 2),
    ] {
        assert_eq!(parse(text).expect_err("the text is no case").line, line, "{text}");
    }
}
