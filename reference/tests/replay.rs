//! Replays of whole inputs, however their lines end.

fn replay(input: &[u8]) -> String {
    let mut output = Vec::new();
    reference::replay::run(input, &mut output).unwrap();
    String::from_utf8(output).unwrap()
}

const CASE: &str = "\
A10000000000000000FFFFFFFA00000000FFFFFFFA00000000
A20000000000000001FFFFFFFBC0000000240100EC0000000000000000475053000000000400000000FFFFFFFA0000000000000004800000000000000580000000
A1000000000000003FFFFFFFFC00000000FFFFFFFC00000000
A30000000000000040FFFFFFFC00000000
";
const ANSWERS: &str = "\
0023000000000000000000000000000000000000000000000000000000000000000000000000000000FFFFFFFA00000000
000000000A200000000000000000C0000000
06
08
";

#[test]
fn whole_case() {
    assert_eq!(replay(CASE.as_bytes()), ANSWERS);
    assert_eq!(replay(CASE.to_lowercase().as_bytes()), ANSWERS);
    assert_eq!(replay(CASE.trim_end().as_bytes()), ANSWERS);
}

#[test]
fn tokens() {
    let (clock, token, zero) = ("FFFFFFFA00000000", "0123456789ABCDEF", "0000000000000000");
    let reply = |originate| CASE.lines().nth(1).unwrap().replace("FFFFFFFA00000000", originate);
    let frames = [
        format!("A1{zero}{zero}{zero}"),
        format!("A1{zero}{zero}{token}"),
        format!("A1{zero}{clock}{zero}"),
        format!("A1{zero}{clock}{token}"),
        format!("A1{zero}{clock}{zero}"),
        format!("A1{zero}{clock}{token}"),
        reply(clock),
        reply(token),
    ];
    let request = format!("0023{}{token}", "00".repeat(39));
    let measured = ANSWERS.lines().nth(1).unwrap();
    let answers = ["03", "03", "2A", &request, "2A", "05", "09", measured, ""];
    assert_eq!(replay(frames.join("\n").as_bytes()), answers.join("\n"));
}

#[test]
fn line_ends() {
    assert_eq!(replay(b""), "");
    assert_eq!(replay(b"\n"), "40\n");
    assert_eq!(replay(b"\n\n"), "40\n40\n");
    assert_eq!(replay(b"A"), "40\n");
    assert_eq!(replay(b"\r\n"), "40\n");
    assert_eq!(replay(b"\0"), "40\n");
    assert_eq!(replay(CASE.replace('\n', "\r\n").as_bytes()), "40\n".repeat(4));
}

#[test]
fn malformed_lines() {
    let lines = [
        "A10000000000000000000000000000000100000000000000010",
        "A1 00000000000000000000000000000001000000000000001",
        "A4000000000000000000000000000000010000000000000001",
        "A10000000000000000000000000000000100000000000001",
        "A100000000000000000000000000000001",
        "A1000000000000000000000000000000010000000000000001FF",
        "A300000000000000000000000000000001FF",
        "A3000000000000000000000000000000010000000000000001",
    ];
    for line in lines {
        assert_eq!(replay(line.as_bytes()), "40\n", "{line}");
    }
}

#[test]
fn packet_lengths() {
    for n in 0..=1040 {
        let line = format!("A2{}{}\n", "00".repeat(16), "00".repeat(n));
        let wanted = match n {
            48 | 52 | 68 | 72 => "08\n",
            0..=1024 => "07\n",
            _ => "40\n",
        };
        assert_eq!(replay(line.as_bytes()), wanted);
    }
}

#[test]
fn extension_fields() {
    let frames: Vec<&str> = CASE.lines().collect();
    let measured = ANSWERS.lines().nth(1).unwrap();
    let field = |octets: usize| format!("0104{octets:04X}{}", "AB".repeat(octets - 4));
    let answer = |tail: &str| {
        let input = format!("{}\n{}{tail}\n", frames[0], frames[1]);
        replay(input.as_bytes()).lines().nth(1).unwrap().to_string()
    };
    for tail in [field(28), field(976), field(16) + &field(28), field(972) + "01020304"] {
        assert_eq!(answer(&tail), measured, "{tail}");
    }
    assert_eq!(answer(&field(16)), "07");
    assert_eq!(answer(&field(28).replace("001C", "000C")), "07");
    assert_eq!(answer(&field(28).replace("001C", "0020")), "07");
    assert_eq!(answer(&(field(972) + "010203")), "07");
    assert_eq!(answer(&(field(976) + "01")), "40");
}

#[test]
fn long_lines_do_not_stop_it() {
    let mut input = vec![b'A'; 1_000_001];
    input.push(b'\n');
    input.extend_from_slice(CASE.as_bytes());
    assert_eq!(replay(&input), format!("40\n{ANSWERS}"));
}

#[test]
fn after_a_kiss_the_client_asks_again_later() {
    let ask = |uptime: u64| format!("A1{uptime:016X}00000000000000BB00000000000000AA\n");
    let head = format!("A2{}", "00".repeat(16));
    let kiss = format!("24{}44454E59{}AA{}\n", "00".repeat(11), "00".repeat(15), "00".repeat(16));
    let frames = [ask(0), head + &kiss, ask(64), ask(127), ask(128)];
    let answers = replay(frames.concat().as_bytes());
    let answers: Vec<&str> = answers.lines().collect();
    assert_eq!(answers[1..4], ["E044454E59", "06", "06"]);
    assert!(answers[4].starts_with("0023"));
}
