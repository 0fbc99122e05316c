//! The answers to single conformance lines.

fn said(input: &str) -> String {
    let mut output = Vec::new();
    reference::conformance::run(input.as_bytes(), &mut output).unwrap();
    String::from_utf8(output).unwrap()
}

fn one(input: &str) -> String {
    said(input).trim_end().to_string()
}

#[test]
fn small_operations() {
    assert_eq!(said(""), "");
    assert_eq!(one("F0"), format!("00{FRESH}"));
    assert_eq!(one("f1"), "00000000000000000000000001000000000000001000000000");
    assert_eq!(one("0100000000000000010000000000000002"), "00FFFFFFFFFFFFFFFF");
    assert_eq!(one("0700000000000010C7"), "00ED");
    assert_eq!(one("070000000000001000"), "00EC");
    assert_eq!(one("070000000000000000"), "1C");
    assert_eq!(one("050000000000000000"), "18");
    assert_eq!(one("050000000000000001"), "00000007F40207061C1000000001");
    assert_eq!(one("06000007F40207061C1000000001"), "000000000000000001");
    assert_eq!(one("06000007F40207061C1000000000"), "18");
    assert_eq!(one("0600000834021D00000000000000"), "19");
}

#[test]
fn measures() {
    let t = "0000000100000000";
    assert_eq!(one(&format!("02{t}{t}{t}{t}")), format!("00{}", "00".repeat(17)));
    assert_eq!(
        one(&format!("02{t}{t}{t}0000000100000001")),
        "00FFFFFFFFFFFFFFFF010000000000000001"
    );
    assert_eq!(one(&format!("02{t}{t}{t}0000001100000001")), "10");
    assert_eq!(one(&format!("02{t}{t}{t}00000000FFFFFFFF")), "0F");
    assert_eq!(one(&format!("02{t}{t}{t}8000000100000000")), "2B");
}

#[test]
fn differences() {
    let difference = |x: u64, y: u64| one(&format!("01{x:016X}{y:016X}"));
    let half = 1 << 63;
    assert_eq!(difference(0, 0), "000000000000000000");
    for (far, y) in [(half, 0), (0, half), (half + 1, 1), (half - 1, u64::MAX)] {
        assert_eq!(difference(far, y), "01");
        assert_eq!(difference(y, far), "01");
        assert_eq!(difference(far.wrapping_sub(1), y), "007FFFFFFFFFFFFFFF");
        assert_eq!(difference(far.wrapping_add(1), y), "008000000000000001");
    }
}

#[test]
fn holds_of_a_server() {
    let reply = |set: &str, t2: &str, t3: &str| {
        let head = format!("0B{set}00EC47505300{}{t2}{t3}30", "00".repeat(8));
        one(&format!("{head}23{}", "00".repeat(47)))[..2].to_string()
    };
    let [t2, below, half, above] =
        ["0000000000000001", "8000000000000000", "8000000000000001", "8000000000000002"];
    assert_eq!([below, half, above].map(|t3| reply("01", t2, t3)), ["00", "2B", "11"]);
    assert_eq!([below, half, above].map(|t3| reply("00", t2, t3)), ["00"; 3]);
    assert_eq!(reply("01", "0000000000000000", below), "0E");
}

#[test]
fn buffers_are_shown() {
    assert_eq!(one(&format!("0403{}", "00".repeat(50))), "015A5B5C");
    let text = one(&format!("0450{}{}", "040000", "00".repeat(47)));
    assert!(text.starts_with("1B5A5B5C5D"));
    assert_eq!(text.len(), 2 + 160);
    let text = one(&format!("0432{}{}", "030707", "00".repeat(47)));
    assert_eq!(text, format!("00FF{}8A8B", "00".repeat(47)));
}

const TOKEN: &str = "0123456789ABCDEF";
const FRESH: &str = "00000000000000000000000000000000000000000000000000000006";
const WAITING: &str = "01FFFFFFFA000000000123456789ABCDEF0401000000000000000706";
const IDLE: &str = "00000000000000000000000000000000000001000000000000000706";
const RAISED: &str = "00000000000000000000000000000000000001000000000000000707";
const STOPPED: &str = "02000000000000000000000000000000000001000000000000000706";
const REPLY: &str = "240100EC00000000000000004750530000000004000000000123456789ABCDEF00000004800000000000000580000000";

#[test]
fn asks() {
    let text = one(&format!("08{FRESH}3004FFFFFFFA00000000{TOKEN}0000000000000007"));
    assert_eq!(text, format!("00{WAITING}23{}{TOKEN}", "00".repeat(39)));
    let number = |record: &str, clock: &str, token: &str| {
        one(&format!("08{record}3004{clock}{token}0000000000000007"))[..2].to_string()
    };
    let zero = "0000000000000000";
    for record in [FRESH, IDLE, WAITING, STOPPED] {
        assert_eq!(number(record, zero, zero), "03");
        assert_eq!(number(record, zero, TOKEN), "03");
        assert_eq!(number(record, TOKEN, zero), "2A");
    }
    let refused = [IDLE, WAITING, STOPPED].map(|record| number(record, TOKEN, TOKEN));
    assert_eq!(refused, ["06", "05", "04"]);
}

#[test]
fn illegal_records() {
    let kept = "FFFFFFFA000000000123456789ABCDEF04";
    let zeros = "0000000000000000000000000000000000";
    let change = |record: &str, range: std::ops::Range<usize>, from: &str| {
        let mut record = record.to_string();
        record.replace_range(range.start + 2..range.end + 2, &from[range]);
        record
    };
    for range in [0..16, 16..32, 32..34] {
        let waiting = change(WAITING, range.clone(), zeros);
        let others = [IDLE, STOPPED, FRESH].map(|record| change(record, range.clone(), kept));
        for record in [waiting].into_iter().chain(others) {
            assert_eq!(one(&format!("0A{record}0000000000000017")), format!("1D{record}"));
        }
    }
}

#[test]
fn arrivals() {
    for alternate in ["00", "01"] {
        let text = one(&format!("09{WAITING}FFFFFFFBC0000000{alternate}{REPLY}"));
        assert_eq!(text, format!("01000000000A200000000000000000C00000000000000000{IDLE}"));
        let text = one(&format!("09{WAITING}0000000000000000{alternate}{REPLY}"));
        assert_eq!(text, format!("0003{}{WAITING}", "00".repeat(22)));
        let text = one(&format!("09{WAITING}7FFFFFFA00000000{alternate}{REPLY}"));
        assert_eq!(text, format!("002B{}{WAITING}", "00".repeat(22)));
        let t1 = REPLY.replace(TOKEN, "FFFFFFFA00000000");
        let text = one(&format!("09{WAITING}FFFFFFFBC0000000{alternate}{t1}"));
        assert_eq!(text, format!("0009{}{WAITING}", "00".repeat(22)));
    }
    assert_eq!(one(&format!("09{WAITING}FFFFFFFBC000000002{REPLY}")), "40");
    assert_eq!(one(&format!("09{WAITING}FFFFFFFBC0000000")), "40");
}

#[test]
fn kisses() {
    let kiss = REPLY.replacen("2401", "2400", 1).replacen("47505300", "52415445", 1);
    for (alternate, next) in [("00", RAISED), ("01", STOPPED)] {
        let text = one(&format!("09{WAITING}0000000000000000{alternate}{kiss}"));
        assert_eq!(text, format!("0200{}524154450C{next}", "00".repeat(17)));
    }
}

#[test]
fn give_ups() {
    assert_eq!(one(&format!("0A{WAITING}0000000000000017")), format!("00{RAISED}"));
    assert_eq!(one(&format!("0A{WAITING}0000000000000016")), format!("14{WAITING}"));
    let illegal = &FRESH.replace("06", "07");
    assert_eq!(one(&format!("0A{illegal}0000000000000016")), format!("1D{illegal}"));
}

/// A call's answer, for a list of the record count, the number in use, the record number and the
/// records.
fn of_list(operation: &str, head: [usize; 3], records: &[&str], rest: &str) -> String {
    let head: String = head.map(|octet| format!("{octet:02X}")).concat();
    one(&format!("{operation}{head}{}{rest}", records.concat()))
}

#[test]
fn asks_for_a_record_of_a_list() {
    let ask = |head, records: &[&str], n| {
        of_list("0E", head, records, &format!("{n}04FFFFFFFA00000000{TOKEN}0000000000000007"))
    };
    let request = format!("23{}{TOKEN}", "00".repeat(39));
    let text = ask([2, 0, 1], &[STOPPED, FRESH], "30");
    assert_eq!(text, format!("0000{STOPPED}{WAITING}{request}"));
    assert_eq!(ask([2, 1, 0], &[STOPPED, FRESH], "00"), format!("0101{STOPPED}{FRESH}"));
    assert_eq!(ask([2, 1, 0], &[STOPPED, FRESH], "02"), format!("0101{STOPPED}{FRESH}5A5B"));
    assert_eq!(ask([0, 3, 7], &[], "02"), "23035A5B");
    assert_eq!(ask([1, 0, 1], &[FRESH], "02"), format!("2300{FRESH}5A5B"));
    assert_eq!(ask([1, 255, 0], &[FRESH], "02"), format!("23FF{FRESH}5A5B"));
    assert_eq!(ask([9, 0, 0], &[FRESH; 9], "00"), format!("2300{}", FRESH.repeat(9)));
    assert_eq!(ask([8, 7, 0], &[FRESH; 8], "00"), format!("0107{}", FRESH.repeat(8)));
    let illegal = &FRESH.replace("06", "07");
    assert_eq!(ask([2, 0, 0], &[FRESH, illegal], "00"), format!("1D00{FRESH}{illegal}"));
}

#[test]
fn arrivals_for_a_record_of_a_list() {
    let arrival = |head, records: &[&str], packet: &str| {
        of_list("0F", head, records, &format!("FFFFFFFBC0000000{packet}"))
    };
    let zeros = |count: usize| "00".repeat(count);
    let kiss = REPLY.replacen("2401", "2400", 1).replacen("47505300", "52415445", 1);
    let text = arrival([2, 0, 1], &[STOPPED, WAITING], REPLY);
    let measured = "000000000A200000000000000000C0000000";
    assert_eq!(text, format!("01{measured}{}{STOPPED}{IDLE}", zeros(6)));
    let told = format!("0200{}524154450C", zeros(17));
    let text = arrival([3, 1, 1], &[IDLE, WAITING, STOPPED], &kiss);
    assert_eq!(text, format!("{told}00{IDLE}{STOPPED}{STOPPED}"));
    let text = arrival([3, 2, 1], &[IDLE, WAITING, STOPPED], &kiss);
    assert_eq!(text, format!("{told}02{IDLE}{STOPPED}{STOPPED}"));
    let text = arrival([2, 1, 1], &[STOPPED, WAITING], &kiss);
    assert_eq!(text, format!("{told}01{STOPPED}{RAISED}"));
    let text = arrival([1, 0, 0], &[WAITING], "");
    assert_eq!(text, format!("0007{}00{WAITING}", zeros(22)));
    assert_eq!(arrival([0, 8, 0], &[], REPLY), format!("0023{}08", zeros(22)));
}

#[test]
fn give_ups_for_a_record_of_a_list() {
    let give_up = |head, records: &[&str], seconds| {
        of_list("10", head, records, &format!("00000000000000{seconds}"))
    };
    let text = give_up([2, 0, 1], &[WAITING, WAITING], "17");
    assert_eq!(text, format!("0000{WAITING}{RAISED}"));
    assert_eq!(give_up([2, 0, 1], &[FRESH, WAITING], "16"), format!("1400{FRESH}{WAITING}"));
    assert_eq!(give_up([2, 1, 0], &[FRESH, WAITING], "16"), format!("0801{FRESH}{WAITING}"));
    assert_eq!(give_up([2, 2, 0], &[FRESH, WAITING], "16"), format!("2302{FRESH}{WAITING}"));
}

#[test]
fn malformed_lists() {
    let give_up = |count: u8, records: &[&str], rest: &str| {
        one(&format!("10{count:02X}0000{}{rest}", records.concat()))
    };
    let uptime = "0000000000000017";
    assert_eq!(give_up(0, &[], uptime), "2300");
    for count in [1, 9, 10, 255] {
        assert_eq!(give_up(count, &[], uptime), "40");
    }
    assert_eq!(give_up(10, &[FRESH; 10], uptime), "40");
    assert_eq!(give_up(9, &[FRESH; 8], uptime), "40");
    assert_eq!(give_up(8, &[FRESH; 9], uptime), "40");
    assert_eq!(give_up(1, &[FRESH], "00000000000017"), "40");
    assert_eq!(give_up(1, &[FRESH], "000000000000000017"), "40");
    let wrong_phase = FRESH.replacen("00", "03", 1);
    let wrong_flag = WAITING.replacen("0401", "0402", 1);
    assert_eq!(give_up(2, &[FRESH, &wrong_phase], uptime), "40");
    assert_eq!(give_up(2, &[FRESH, &wrong_flag], uptime), "40");
    assert_eq!(give_up(9, &[&[FRESH; 8][..], &[&wrong_flag]].concat(), uptime), "40");
    let ask = |n| one(&format!("0E000000{n}04FFFFFFFA00000000{TOKEN}0000000000000007"));
    assert_eq!((ask("50").len(), ask("51").as_str()), (4 + 160, "40"));
    let arrival = |length: usize| one(&format!("0F000000{}", "00".repeat(8 + length)));
    assert_eq!((arrival(1040).len(), arrival(1041).as_str()), (50, "40"));
}

#[test]
fn calls_on_a_ledger() {
    let zero = "0000000000000000";
    let less = "FFFFFFFFFFFFFFFF";
    let most = "0003FFFFFFFFFFFF";
    let over = "0004000000000000";
    assert_eq!(one(&format!("0C{zero}{less}01")), format!("00{less}"));
    assert_eq!(one(&format!("0C{most}{zero}01")), format!("1F{most}"));
    assert_eq!(one(&format!("0C{most}{less}00")), "000003FFFFFFFFFFFD");
    assert_eq!(one(&format!("0C{zero}{zero}02")), format!("1E{zero}"));
    assert_eq!(one(&format!("0C{over}{zero}02")), format!("1D{over}"));
    assert_eq!(one(&format!("0D{less}0000000100000000")), format!("00{less}{zero}"));
    assert_eq!(one(&format!("0D{zero}0000000000000001")), format!("00{zero}{zero}"));
    assert_eq!(one(&format!("0D{less}0000000100000001")), format!("20{zero}{less}"));
    assert_eq!(one(&format!("0D{over}{zero}")), format!("1D{zero}{over}"));
    let tick = format!("000000000000000001{}", "0003FFFFFFFFFFFE");
    assert_eq!(one(&format!("0D{most}0000000000000001")), tick);
    assert_eq!(one(&format!("0C{zero}{zero}")), "40");
    assert_eq!(one(&format!("0D{zero}{zero}00")), "40");
}

/// A writer's answer: flag, leap indicator and precision, version and poll, T3, and n.
fn broadcast(set: &str, version_poll: &str, t3: &str, n: &str) -> String {
    one(&format!("11{set}475053000102030405060708{version_poll}{t3}{n}"))
}

#[test]
fn broadcasts_written() {
    let t3 = "FFFFFFFA00000000";
    let zero = "0000000000000000";
    let on = format!("0025010EEC{zero}475053000102030405060708{zero}{zero}{t3}");
    let off = format!("00E50004EC{zero}494E4954{}", zero.repeat(4));
    assert_eq!(broadcast("0100EC", "040E", t3, "30"), on);
    assert_eq!(broadcast("0100EC", "040E", t3, "32"), format!("{on}8A8B"));
    assert_eq!(broadcast("0000EC", "0404", t3, "30"), off);
    assert_eq!(broadcast("0000EC", "0404", zero, "31"), format!("{off}8A"));
    assert_eq!(broadcast("0103EC", "0003", zero, "02"), "015A5B");
    let number = |set, version_poll, t3| broadcast(set, version_poll, t3, "30")[..6].to_string();
    assert_eq!(number("0103EC", "0003", zero), "165A5B");
    assert_eq!(number("0103EC", "0503", zero), "165A5B");
    assert_eq!(number("010001", "0103", zero), "175A5B");
    assert_eq!(number("0002DF", "010F", zero), "175A5B");
    assert_eq!(number("0102E0", "010F", zero), "295A5B");
    assert_eq!(number("010200", "0104", zero), "0E5A5B");
}

#[test]
fn broadcasts_arriving() {
    let arrival = |t4: &str, packet: &str| one(&format!("12{t4}{packet}"));
    let packet = REPLY.replacen("24", "25", 1);
    let t4 = "FFFFFFFBC0000000";
    assert_eq!(arrival(t4, &packet), "0000000009C0000000");
    assert_eq!(arrival("0000000600000000", &packet), "00FFFFFFFF80000000");
    assert_eq!(arrival(t4, &format!("{packet}{}", "AB".repeat(20))), "0000000009C0000000");
    assert_eq!(arrival(t4, &format!("{packet}AB")), "07");
    assert_eq!(arrival(t4, ""), "07");
    assert_eq!(arrival(t4, REPLY), "24");
    assert_eq!(arrival(t4, &packet.replacen("25", "2D", 1)), "25");
    assert_eq!(arrival(t4, &packet.replacen("25", "E5", 1)), "26");
    assert_eq!(arrival(t4, &packet.replacen("2501", "2500", 1)), "27");
    assert_eq!(arrival(t4, &packet.replacen("2501", "2510", 1)), "27");
    assert_eq!(arrival(t4, &packet.replace("0000000580000000", "0000000000000000")), "28");
    assert_eq!(arrival("0000000000000000", &packet), "03");
    assert_eq!(arrival("8000000580000001", &packet), "007FFFFFFFFFFFFFFF");
    assert_eq!(arrival("8000000580000000", &packet), "2B");
    assert_eq!(arrival("800000057FFFFFFF", &packet), "008000000000000001");
}

#[test]
fn malformed_broadcasts() {
    let zero = "0000000000000000";
    assert_eq!(broadcast("0100EC", "0404", zero, "50").len(), 2 + 160);
    assert_eq!(broadcast("0100EC", "0404", zero, "51"), "40");
    assert_eq!(broadcast("0200EC", "0404", zero, "30"), "40");
    assert_eq!(broadcast("0100EC", "0404", zero, ""), "40");
    assert_eq!(broadcast("0100EC", "0404", zero, "3000"), "40");
    let arrival = |octets: usize| one(&format!("12{}", "00".repeat(octets)));
    let answers = [7, 8, 88, 1048, 1049].map(arrival);
    assert_eq!(answers, ["40", "07", "07", "07", "40"]);
}

/// An extension field of so many octets.
fn field(octets: usize) -> String {
    format!("0104{octets:04X}{}", "AB".repeat(octets - 4))
}

#[test]
fn extension_fields_read() {
    let read = |tail: &str| one(&format!("13{REPLY}{tail}"));
    let fields = |count: &str, octets: &[usize]| {
        let fields = octets.iter().map(|o| format!("0104{:04X}{}", o - 4, "AB".repeat(o - 4)));
        format!("00{count}{}", fields.collect::<String>())
    };
    assert_eq!(read(""), "0000");
    assert_eq!(read(&"AB".repeat(20)), "0000");
    assert_eq!(read(&field(20)), "0000");
    assert_eq!(read(&field(28)), fields("01", &[28]));
    assert_eq!(read(&(field(16) + &field(28) + "00000000")), fields("02", &[16, 28]));
    let many = field(16).repeat(59) + &field(32);
    assert_eq!(read(&many), fields("3C", &[&[16; 59][..], &[32]].concat()));
    assert_eq!(read(&field(980)), "07");
    for broken in [field(16), field(28) + "00", field(28).replace("001C", "001D")] {
        assert_eq!(read(&broken), "07");
    }
    assert_eq!(one("13"), "07");
}

#[test]
fn packets_with_extension_fields() {
    for (tail, legal) in [(field(28), true), (field(28).replace("001C", "000C"), false)] {
        let packet = format!("{REPLY}{tail}");
        let numbers = [
            one(&format!("03{packet}"))[..2].to_string(),
            one(&format!("09{WAITING}FFFFFFFBC000000000{packet}"))[..4].to_string(),
            one(&format!("0F010000{WAITING}FFFFFFFBC0000000{packet}"))[..4].to_string(),
            one(&format!("12FFFFFFFBC0000000{}", packet.replacen("24", "25", 1)))[..2].to_string(),
            one(&format!("0B00{}23{}{tail}", "00".repeat(30) + "30", "00".repeat(47)))[..2]
                .to_string(),
        ];
        let legal_numbers = ["00", "0100", "0100", "00", "00"];
        let wanted = if legal { legal_numbers } else { ["07", "0007", "0007", "07", "07"] };
        assert_eq!(numbers, wanted);
    }
}

/// The answer to an addition: buffer length, packet length, body and first octets.
fn added(buffer: u16, packet: u16, body: &str, first: &str) -> String {
    let length = body.len() / 2;
    one(&format!("14{buffer:04X}{packet:04X}0204{length:04X}{body}{first}"))
}

/// The octets of a buffer that are not given, from one place to another.
fn filled(places: std::ops::Range<usize>) -> String {
    places.map(|place| format!("{:02X}", (0x5A + place) % 256)).collect()
}

#[test]
fn extension_fields_added() {
    let zeros = |count: usize| "00".repeat(count);
    let field = format!("0204001CAABB{}", zeros(22));
    assert_eq!(added(76, 48, "AABB", REPLY), format!("00004C{REPLY}{field}"));
    assert_eq!(added(80, 48, "AABB", REPLY), format!("00004C{REPLY}{field}{}", filled(76..80)));
    let first = format!("{REPLY}{}", "77".repeat(32));
    assert_eq!(added(80, 48, "AABB", &first), format!("00004C{REPLY}{field}77777777"));
    assert_eq!(added(75, 48, "AABB", REPLY), format!("2C0000{REPLY}{}", filled(48..75)));
    assert_eq!(added(47, 48, "AABB", ""), format!("070000{}", filled(0..47)));
    assert_eq!(added(0, 0, "", ""), "070000");
    assert_eq!(added(0, 0xFFFF, "", ""), "070000");
    assert_eq!(added(76, 48, "", ""), format!("00004C{}0204001C{}", filled(0..48), zeros(24)));
    let long = "AB".repeat(972);
    assert!(added(1100, 48, &long, REPLY).starts_with(&format!("000400{REPLY}020403D0ABAB")));
    assert!(added(1100, 48, &"AB".repeat(973), REPLY).starts_with("2C0000"));
    assert_eq!(added(1100, 48, &"AB".repeat(1100), REPLY).len(), 6 + 2200);
    let authenticated = format!("{REPLY}{}", zeros(4));
    assert!(added(100, 52, "", &authenticated).starts_with("2C0000"));
    assert!(added(100, 51, "", &authenticated).starts_with("070000"));
}

#[test]
fn malformed_additions() {
    assert_eq!(added(1101, 48, "AABB", ""), "40");
    assert_eq!(added(48, 48, &"AB".repeat(1101), ""), "40");
    assert_eq!(added(47, 48, "", REPLY), "40");
    assert_eq!(added(48, 48, "", &format!("{REPLY}00")), "40");
    assert!(added(48, 48, "", REPLY).starts_with("2C0000"));
    for line in ["14", "1400", "14003000300204", "14003000300204FF", "140030003002040001"] {
        assert_eq!(one(line), "40", "{line}");
    }
}

#[test]
fn unix_times() {
    let unix = |timestamp: u64| one(&format!("15{timestamp:016X}"));
    let given = |seconds: i64, nanoseconds: u32| format!("00{seconds:016X}{nanoseconds:08X}");
    assert_eq!(unix(0), "18");
    assert_eq!(unix(2_208_988_800 << 32), given(0, 0));
    assert_eq!(unix((2_208_988_800 << 32) - 1), given(-1, 999_999_999));
    assert_eq!([4, 5].map(unix), [given(2_085_978_496, 0), given(2_085_978_496, 1)]);
    let back = |seconds: i64, nanoseconds: u32| one(&format!("16{seconds:016X}{nanoseconds:08X}"));
    assert_eq!(back(0, 0), "0083AA7E8000000000");
    assert_eq!(back(0, 1), "0083AA7E8000000005");
    assert_eq!(back(-1, 999_999_999), "0083AA7E7FFFFFFFFC");
    assert_eq!(back(2_085_978_496, 0), "18");
    assert_eq!(back(2_085_978_496, 1), "000000000000000005");
    assert_eq!([back(-61_505_152, 0), back(-61_505_153, 0)], ["008000000000000000", "1A"]);
    assert_eq!([back(i64::MIN, 0), back(i64::MAX, 999_999_999)], ["1A", "1A"]);
    assert_eq!([back(i64::MIN, 1_000_000_000), back(2_085_978_496, u32::MAX)], ["19", "19"]);
    for line in ["15", "1500000000000000", "15000000000000000000", "16", "160000000000000000000000"]
    {
        assert_eq!(one(line), "40", "{line}");
    }
}

#[test]
fn time_protocol() {
    assert_eq!(one("170102030404"), "0001020304");
    assert_eq!(one("170000000006"), "00000000005E5F");
    assert_eq!(one("170102030403"), "2D5A5B5C");
    assert_eq!(one("170102030400"), "2D");
    assert_eq!(one("170102030450").len(), 2 + 160);
    assert_eq!(one("1801020304"), "0001020304");
    assert_eq!(one("1800000000"), "0000000000");
    assert_eq!(["18", "18010203", "180102030405"].map(one), ["2D"; 3]);
    assert_eq!(one(&format!("18{}", "00".repeat(80))), "2D");
    let long = format!("18{}", "00".repeat(81));
    for line in ["17", "1701020304", "170102030451", "17010203040400", &long] {
        assert_eq!(one(line), "40", "{line}");
    }
}

const FRESH_IMAGE: &str = "200000000000000000000000000000000000000000000000000000000000000000";
const WAITING_IMAGE: &str = "200104010000000000FFFFFFFA000000000123456789ABCDEF0000000000000007";
const IDLE_IMAGE: &str = "200000010000000000000000000000000000000000000000000000000000000007";
const RAISED_IMAGE: &str = "200000010100000000000000000000000000000000000000000000000000000007";
const STOPPED_IMAGE: &str = "200200010000000000000000000000000000000000000000000000000000000007";

/// The octets of a slice, without its length.
fn shown(slice: &str) -> &str {
    &slice[2..]
}

#[test]
fn firmware_of_a_client() {
    assert_eq!(one(&format!("19{WAITING_IMAGE}")), format!("00{}", shown(FRESH_IMAGE)));
    assert_eq!([one("1900"), one("1902AABB")], ["2E", "2EAABB"]);
    let ask = |image, n, version: u32| {
        one(&format!("1A{image}{n}{version:08X}FFFFFFFA00000000{TOKEN}0000000000000007"))
    };
    let request = format!("23{}{TOKEN}", "00".repeat(39));
    let taken = format!("00{}{request}", shown(WAITING_IMAGE));
    assert_eq!(ask(FRESH_IMAGE, "30", 4), taken);
    assert_eq!(ask(FRESH_IMAGE, "01", 260), format!("01{}5A", shown(FRESH_IMAGE)));
    assert_eq!(&ask(FRESH_IMAGE, "30", 260)[..2], "02");
    assert_eq!(&ask(WAITING_IMAGE, "30", 4)[..2], "05");
    assert_eq!(ask("010A", "01", 0), "2E0A5A");
    let give_up = |image, uptime| one(&format!("1C{image}00000000000000{uptime}"));
    assert_eq!(give_up(WAITING_IMAGE, "17"), format!("00{}", shown(RAISED_IMAGE)));
    assert_eq!(give_up(WAITING_IMAGE, "16"), format!("14{}", shown(WAITING_IMAGE)));
    let illegal = WAITING_IMAGE.replacen("2001", "2003", 1);
    assert_eq!(give_up(&illegal, "17"), format!("2E{}", shown(&illegal)));
}

#[test]
fn firmware_of_an_arrival() {
    let slice = format!("18{}", "77".repeat(24));
    let arrival = |slice: &str, alternate: u32, packet: &str| {
        one(&format!("1B{WAITING_IMAGE}{slice}FFFFFFFBC0000000{alternate:08X}{packet}"))
    };
    let answer = format!("01{}0000000A2000000000000000C0000000", "00".repeat(7));
    assert_eq!(arrival(&slice, 0, REPLY), format!("00{}{answer}", shown(IDLE_IMAGE)));
    let kiss = REPLY.replacen("2401", "2400", 1).replacen("47505300", "52415445", 1);
    let told = format!("02000C0052415445{}", "00".repeat(16));
    assert_eq!(arrival(&slice, 0, &kiss), format!("00{}{told}", shown(RAISED_IMAGE)));
    for alternate in [1, 2, 256, u32::MAX] {
        assert_eq!(arrival(&slice, alternate, &kiss), format!("00{}{told}", shown(STOPPED_IMAGE)));
    }
    let stays = format!("{}{}", shown(WAITING_IMAGE), "77".repeat(24));
    assert_eq!(arrival(&slice, 0, ""), format!("07{stays}"));
    assert_eq!(arrival("00", 0, ""), format!("2E{}", shown(WAITING_IMAGE)));
    assert_eq!(arrival("01AA", 0, REPLY), format!("2E{}AA", shown(WAITING_IMAGE)));
}

#[test]
fn firmware_of_a_server() {
    let reply = |synchronised: u32, leap: u32, precision: i32, n: &str| {
        let set = format!("{synchronised:08X}{leap:08X}{precision:08X}47505300");
        let times = "000000000000000900000000000000050000000000000006";
        one(&format!("1D{set}{times}{n}23{}", "00".repeat(47)))
    };
    let on = format!("240100EC{}475053000000000000000009", "00".repeat(8));
    let on = format!("{on}{}00000000000000050000000000000006", "00".repeat(8));
    for synchronised in [1, 2, 256, u32::MAX] {
        assert_eq!(reply(synchronised, 0, -20, "30"), format!("00{on}"));
    }
    assert!(reply(0, 0, -20, "30").starts_with("00E40000EC"));
    assert_eq!(reply(1, 258, 0, "01"), "015A");
    for (leap, precision) in [(3, 0), (258, 0), (0, 224), (0, 1), (0, -33), (0, i32::MIN)] {
        assert_eq!(&reply(1, leap, precision, "30")[..4], "175A");
    }
}

#[test]
fn malformed_firmware() {
    let octets = |count: usize| "00".repeat(count);
    assert_eq!(one(&format!("1928{}", octets(40))), format!("2E{}", octets(40)));
    assert_eq!(one(&format!("1929{}", octets(41))), "40");
    let arrival = |slice: usize, packet: usize| {
        one(&format!("1B00{slice:02X}{}", octets(slice + 12 + packet)))
    };
    assert_eq!([arrival(40, 1040), arrival(0, 0)], [format!("2E{}", octets(40)), "2E".into()]);
    assert_eq!([arrival(41, 0), arrival(40, 1041)], ["40", "40"]);
    let ask = |n: u8| one(&format!("1A00{n:02X}{}", octets(28)));
    assert_eq!((ask(80).len(), ask(81).as_str()), (162, "40"));
    let reply = |n: u8, request: usize| one(&format!("1D{}{n:02X}{}", octets(40), octets(request)));
    assert_eq!(
        (reply(80, 1040).len(), reply(80, 1041), reply(81, 0)),
        (162, "40".into(), "40".into())
    );
    for line in ["19", "1902AA", "1900AA", "1A", "1A00", "1B", "1B00", "1B0000", "1C", "1C00", "1D"]
    {
        assert_eq!(one(line), "40", "{line}");
    }
}

#[test]
fn malformed_by_their_characters() {
    for line in ["\n", "0", "F0\r", "F0 ", " F0", "F0\0", "0G", "F", "F00"] {
        assert_eq!(one(line), "40", "{line:?}");
    }
    assert_eq!(said("F0\nF0").lines().count(), 2);
}

#[test]
fn malformed_by_their_operation_or_length() {
    for line in ["00", "1E", "F3", "F000", "0100", "0C", "0D", "0E", "0F", "10", "11", "12"] {
        assert_eq!(one(line), "40", "{line:?}");
    }
    assert_eq!(one("03"), "07");
    for operation in ["03", "13"] {
        assert_eq!(one(&format!("{operation}{}", "00".repeat(1040))), "07");
        assert_eq!(one(&format!("{operation}{}", "00".repeat(1041))), "40");
    }
}

#[test]
fn malformed_without_a_token() {
    let time = "0000000000000017";
    let ask = |record, token| one(&format!("08{record}3004{time}{token}{time}"));
    let without = &FRESH[16..];
    assert!(ask(FRESH, TOKEN).starts_with("0001"));
    assert_eq!([ask(FRESH, ""), ask(without, TOKEN), ask(without, "")], ["40"; 3]);
    assert_eq!(one(&format!("09{without}{time}00")), "40");
    assert_eq!(one(&format!("0A{without}{time}")), "40");
    for (operation, rest) in [("0E", format!("3004{time}{TOKEN}{time}")), ("10", time.into())] {
        assert_eq!(of_list(operation, [2, 0, 1], &[without; 2], &rest), "40");
        assert_eq!(of_list(operation, [2, 0, 1], &[FRESH, without], &rest), "40");
    }
}

#[test]
fn malformed_by_one_octet() {
    let ask = |phase, asked, n| {
        let record = format!("{phase}{}{asked}{}06", "00".repeat(17), "00".repeat(8));
        one(&format!("08{record}{n}04FFFFFFFA00000000{TOKEN}0000000000000007"))
    };
    assert!(ask("00", "00", "30").starts_with("0001"));
    assert!(ask("00", "00", "50").starts_with("0001"));
    assert_eq!(ask("03", "00", "30"), "40");
    assert_eq!(ask("00", "02", "30"), "40");
    assert_eq!(ask("00", "00", "51"), "40");
    assert_eq!(one(&format!("0B00{}", "00".repeat(31))), "01");
    assert_eq!(one(&format!("0B02{}", "00".repeat(31))), "40");
}
