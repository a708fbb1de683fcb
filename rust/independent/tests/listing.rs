//! The listing of scripts: the scope paper's own, and what each rule of the bench gives.

use independent::bench::{listing, MAX_SCRIPT_LENGTH, MESSAGE_PLACES};

fn list(script: &str) -> String {
    String::from_utf8(listing(script.as_bytes())).unwrap()
}

const MALFORMED_HEADER: &str = "0,?,-,8,-,-\nend,0,0\n";

#[test]
fn the_papers_script() {
    let script = "B,3,7\nP,0,412077\nD,0,0\nD,1,0\nD,1,1\nD,1,2\nD,0,1\nW,0,2\nD,0,3\nU,0\nD,2,3\nD,2,1\nD,2,2\nD,2,4\n";
    let expected = "\
B,3,7
1,P,0,0,0,-
2,D,0,0,1,-
3,D,1,0,2,-
4,D,1,0,-,-
5,D,1,0,3,-
6,D,0,0,-,-
7,W,0,0,-,-
8,D,0,9,-,-
9,U,0,0,-,-
10,D,2,0,-,-
11,D,2,0,-,-
12,D,2,0,4,-
13,D,2,0,-,412077
end,13,5
";
    assert_eq!(list(script), expected);
}

#[test]
fn headers() {
    assert_eq!(list("B,3,7\n"), "B,3,7\nend,0,0\n");
    assert_eq!(list(",16,9999\n"), "B,16,9999\nend,0,0\n");
    assert_eq!(list("R,3,1\n"), "R,3,1\nend,0,0\n");
    let malformed = [
        "",
        "\n",
        "B",
        "B,3,7",
        "B,3\n",
        "B,3,7,\n",
        "B,3,7,1\n",
        "b,3,7\n",
        "BB,3,7\n",
        "B,2,7\n",
        "B,17,7\n",
        "B,3,0\n",
        "B,3,10000\n",
        "B,03,7\n",
        "B,3,+7\n",
        "B,3,7\r\n",
        " B,3,7\n",
        "B,,7\n",
        "B,3,\n",
        "?\nP,0,5\n",
        "\"B\",3,7\n",
        "B,3,4294967303\n",
        "\nB,3,7\n",
    ];
    for script in malformed {
        assert_eq!(list(script), MALFORMED_HEADER, "{script:?}");
    }
}

#[test]
fn refusal_8_malformed_lines() {
    let malformed = [
        "D,1",
        "",
        "P",
        "P,0",
        "P,0,",
        "P,0,5,",
        "P,0,05",
        "P,00,5",
        "P,0,-5",
        "P,0,4294967296",
        "P,0,00000000005",
        "P,0,99999999999999999999",
        "P,3,5",
        "K",
        "K,",
        "K,3",
        "K,0,",
        "K,0,0",
        "U,0,1",
        "U,4294967295",
        "p,0,5",
        "PP,0,5",
        ",0,5",
        "X,0,5",
        "P,0,5\r",
        " P,0,5",
        "P, 0,5",
        "P,0,5 ",
        "P,0,\u{663}",
        "\u{0}",
    ];
    for line in malformed {
        assert_eq!(
            list(&format!("B,3,7\n{line}\n")),
            "B,3,7\n1,?,-,8,-,-\nend,1,0\n",
            "{line:?}"
        );
    }
    // Without byte 10 the last line is malformed, and counted; the lines before it are played.
    assert_eq!(
        list("B,3,7\nP,0,5\nK,0"),
        "B,3,7\n1,P,0,0,0,-\n2,?,-,8,-,-\nend,2,1\n"
    );
}

#[test]
fn refusal_9_down_or_not_down() {
    assert_eq!(
        list("B,3,7\nK,0\nK,0\n"),
        "B,3,7\n1,K,0,0,-,-\n2,K,0,9,-,-\nend,2,0\n"
    );
    // Before 10, 5 and 6.
    let script = "B,3,7\nU,0\nK,0\nD,0,9\nW,0,9\nP,0,100000000\nU,0\nU,0\n";
    let expected = "B,3,7\n1,U,0,9,-,-\n2,K,0,0,-,-\n3,D,0,9,-,-\n4,W,0,9,-,-\n5,P,0,9,-,-\n6,U,0,0,-,-\n7,U,0,9,-,-\nend,7,0\n";
    assert_eq!(list(script), expected);
}

#[test]
fn refusal_10_not_yet_sent() {
    assert_eq!(list("B,3,7\nD,0,0\n"), "B,3,7\n1,D,0,10,-,-\nend,1,0\n");
    let script = "B,3,7\nP,0,5\nD,0,1\nW,0,4294967295\nD,0,0\n";
    let expected = "B,3,7\n1,P,0,0,0,-\n2,D,0,10,-,-\n3,W,0,10,-,-\n4,D,0,0,1,-\nend,4,2\n";
    assert_eq!(list(script), expected);
}

#[test]
fn refusal_6_mileage() {
    let script = "B,3,7\nP,0,100000000\nP,0,4294967295\nP,0,99999999\nP,1,10000000\n";
    assert_eq!(
        list(script),
        "B,3,7\n1,P,0,6,-,-\n2,P,0,6,-,-\n3,P,0,0,0,-\n4,P,1,0,1,-\nend,4,2\n"
    );
}

/// Above the bound that was before request 3 a mileage is decided as any other.
#[test]
fn mileages_in_ten_metre_steps_are_decided() {
    for mileage in ["9999999", "10000000", "99999999"] {
        let script = format!("R,3,7\nP,0,{mileage}\nD,0,0\nD,1,0\nD,2,0\nD,0,1\nD,0,2\nD,0,3\n");
        let expected = format!(
            "R,3,7\n1,P,0,0,0,-\n2,D,0,0,1,-\n3,D,1,0,2,-\n4,D,2,0,3,-\n\
             5,D,0,0,-,-\n6,D,0,0,-,-\n7,D,0,0,-,{mileage}\nend,7,4\n"
        );
        assert_eq!(list(&script), expected);
    }
}

#[test]
fn refusal_5_a_skip_for_another_unit() {
    // n = 3 in R needs three SECONDs; unit 0 closes round 0 and answers the late FIRST with a SKIP to unit 1.
    let script = "R,3,7\nP,1,5\nD,0,0\nD,1,0\nD,2,0\nD,0,1\nD,0,2\nD,0,3\nD,0,0\nD,2,4\nW,2,4\nD,2,4\nD,1,4\n";
    let expected = "\
R,3,7
1,P,1,0,0,-
2,D,0,0,1,-
3,D,1,0,2,-
4,D,2,0,3,-
5,D,0,0,-,-
6,D,0,0,-,-
7,D,0,0,-,5
8,D,0,0,4,-
9,D,2,5,-,-
10,W,2,5,-,-
11,D,2,5,-,-
12,D,1,0,-,-
end,12,5
";
    assert_eq!(list(script), expected);
}

#[test]
fn refusal_11_no_place_left() {
    let mut script = String::from("B,3,7\nP,0,5\nD,0,0\nD,1,0\n");
    let mut expected = String::from("B,3,7\n1,P,0,0,0,-\n2,D,0,0,1,-\n3,D,1,0,2,-\n");
    for index in 4..=MESSAGE_PLACES {
        script += "P,0,5\n";
        expected += &format!("{index},P,0,0,{},-\n", index - 1);
    }
    // 6 and 10 come before 11. A FIRST would be taken by unit 2 and have unit 0 send its CHECK again.
    script += "P,0,5\nP,0,100000000\nD,2,128\nD,2,0\nD,0,0\n";
    expected += "129,P,0,11,-,-\n130,P,0,6,-,-\n131,D,2,10,-,-\n132,D,2,11,-,-\n133,D,0,11,-,-\n";
    // A step that sends nothing is accepted. The refused quorum changed nothing: with its second estimate set, unit 2 would be refused again.
    script += "D,2,1\nD,2,2\nD,2,1\n";
    expected += "134,D,2,0,-,-\n135,D,2,11,-,-\n136,D,2,0,-,-\n";
    // W never meets 11. It logs the first estimate, which unit 2 would send again, and then it logs nothing.
    script += "W,2,0\nU,2\nD,2,0\nW,2,0\nK,1\n";
    expected +=
        "137,W,2,0,-,-\n138,U,2,0,-,-\n139,D,2,11,-,-\n140,W,2,0,-,-\n141,K,1,0,-,-\nend,141,128\n";
    assert_eq!(list(&script), expected);
}

/// The request's brake box: unit 2 logged its estimate and lost power; the FIRST has it send its SECOND, and the entry closes.
#[test]
fn a_second_lost_at_a_cut_goes_out_again() {
    let script = "R,3,7\nP,0,412077\nD,0,0\nD,1,0\nW,2,0\nU,2\nD,2,0\nD,0,1\nD,0,2\nD,0,3\n";
    let expected = "\
R,3,7
1,P,0,0,0,-
2,D,0,0,1,-
3,D,1,0,2,-
4,W,2,0,-,-
5,U,2,0,-,-
6,D,2,0,3,-
7,D,0,0,-,-
8,D,0,0,-,-
9,D,0,0,-,412077
end,9,4
";
    assert_eq!(list(script), expected);
}

#[test]
fn check_and_second_lost_at_cuts_go_out_again() {
    // Unit 1 loses its CHECK, and later its SECOND: message 2 is its CHECK, 3 and 4 its SECOND, had by the CHECK of another and by its own.
    let script = "B,3,7\nP,0,5\nD,0,0\nW,1,0\nU,1\nD,1,0\nD,1,1\nW,1,2\nU,1\nD,1,1\nD,1,2\n\
                  D,0,1\nD,0,2\nD,2,5\nD,2,4\nD,2,3\nD,1,0\nW,1,0\nD,1,0\nU,1\nD,1,0\n";
    // A FIRST has it send its CHECK, though it has both estimates. A cut repeat is like a key-off.
    let expected = "\
B,3,7
1,P,0,0,0,-
2,D,0,0,1,-
3,W,1,0,-,-
4,U,1,0,-,-
5,D,1,0,2,-
6,D,1,0,-,-
7,W,1,0,-,-
8,U,1,0,-,-
9,D,1,0,3,-
10,D,1,0,4,-
11,D,0,0,-,-
12,D,0,0,5,-
13,D,2,0,-,-
14,D,2,0,-,5
15,D,2,0,6,-
16,D,1,0,7,-
17,W,1,0,-,-
18,D,1,9,-,-
19,U,1,0,-,-
20,D,1,0,8,-
end,20,9
";
    assert_eq!(list(script), expected);
}

#[test]
fn a_cut_delivery_loses_what_it_gave() {
    // W of the SECOND that decides: no decision, no log write, and key-on goes back to the log's round with no marks.
    let script = "B,3,7\nP,0,5\nD,0,0\nD,1,0\nD,0,1\nD,0,2\nD,1,1\nD,1,2\nD,2,3\nW,2,4\nD,2,3\nU,2\nD,2,4\nD,2,3\n";
    let expected = "\
B,3,7
1,P,0,0,0,-
2,D,0,0,1,-
3,D,1,0,2,-
4,D,0,0,-,-
5,D,0,0,3,-
6,D,1,0,-,-
7,D,1,0,4,-
8,D,2,0,-,-
9,W,2,0,-,-
10,D,2,9,-,-
11,U,2,0,-,-
12,D,2,0,-,-
13,D,2,0,-,5
end,13,5
";
    assert_eq!(list(script), expected);
}

#[test]
fn key_off_loses_an_unlogged_proposal() {
    let script = "B,3,7\nP,0,5\nK,0\nU,0\nP,0,6\nD,1,1\nD,1,0\nD,2,2\nD,0,2\nD,0,0\n";
    // Message 1 is FIRST of 6, which unit 1 takes; its CHECK is message 2, and 3 when it meets the FIRST of 5.
    let expected = "\
B,3,7
1,P,0,0,0,-
2,K,0,0,-,-
3,U,0,0,-,-
4,P,0,0,1,-
5,D,1,0,2,-
6,D,1,0,3,-
7,D,2,0,-,-
8,D,0,0,-,-
9,D,0,0,4,-
end,9,5
";
    assert_eq!(list(script), expected);
}

#[test]
fn script_length() {
    let line = "K,0\n";
    let mut script = String::from("B,16,7777\n");
    while script.len() + line.len() <= MAX_SCRIPT_LENGTH {
        script += line;
    }
    script += &"\n".repeat(MAX_SCRIPT_LENGTH - script.len());
    assert_eq!(script.len(), MAX_SCRIPT_LENGTH);
    assert!(list(&script).starts_with("B,16,7777\n1,K,0,0,-,-\n2,K,0,9,-,-\n"));
    assert!(list(&script).ends_with("\n8191,?,-,8,-,-\nend,8191,0\n"));
    script += "\n";
    assert_eq!(list(&script), MALFORMED_HEADER);
}

#[test]
fn any_bytes_are_listed() {
    let alphabet = b"BPDWKU0123,,\n\n\n\xFF";
    let mut state = 0x9E37_79B9_7F4A_7C15_u64;
    for _ in 0..20_000 {
        let mut script = b"R,3,7\n".to_vec();
        for _ in 0..state % 60 {
            state = state
                .wrapping_mul(6_364_136_223_846_793_005)
                .wrapping_add(1_442_695_040_888_963_407);
            script.push(alphabet[(state >> 60) as usize]);
        }
        state ^= state >> 29;
        let lines = script[6..].split_inclusive(|&byte| byte == b'\n').count();
        let text = String::from_utf8(listing(&script)).unwrap();
        assert_eq!(text.lines().count(), lines + 2);
        assert!(text
            .lines()
            .last()
            .unwrap()
            .starts_with(&format!("end,{lines},")));
    }
}
