use trinorm::{run, Answer, Fault, Status};

fn expected(status: Status, text: &str) -> Result<Answer, Fault> {
    Ok(Answer {
        status,
        text: text.as_bytes().to_vec(),
    })
}

#[test]
fn commands_are_answered() {
    let table = b"tri 1\n0:1023 0:1023 0:1230 0:3012\n";
    assert_eq!(run(&["sig"], table), expected(Status::Done, "bkaagj\n"));
    assert_eq!(
        run(&["sig"], b"sig bkaagjx\n"),
        expected(Status::Input, "refused: signature trailing 6\n")
    );
    assert_eq!(
        run(&["signature"], table),
        expected(Status::Usage, "refused: usage\n")
    );
    assert_eq!(run(&["sig\0"], table), Err(Fault::ZeroByte));
}

#[test]
fn long_answers_get_their_room() {
    let rows: String = (0..12)
        .map(|t| {
            format!(
                "{n}:1023 {p}:1023 {p}:0132 {n}:0132\n",
                n = (t + 1) % 12,
                p = (t + 11) % 12
            )
        })
        .collect();
    let answer = run(&["surfaces"], format!("tri 12\n{rows}").as_bytes()).unwrap();
    assert_eq!(answer.status, Status::Done);
    assert!(answer.text.len() > 1 << 14);
    assert!(answer.text.capacity() < 2 * answer.text.len());
    assert!(answer.text.ends_with(b"\n"));
}

#[test]
fn threads_go_side_by_side() {
    let wanted = run(&["surfaces"], b"sig cPcbbbiht\n");
    std::thread::scope(|scope| {
        for _ in 0..4 {
            scope.spawn(|| {
                (0..50).for_each(|_| assert_eq!(run(&["surfaces"], b"sig cPcbbbiht\n"), wanted))
            });
        }
    });
}
