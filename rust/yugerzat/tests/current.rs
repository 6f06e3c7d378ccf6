//! The current reading of replies beside nfsserve's: where RFC 5531's lists are longer, and that nothing else differs.
use yugerzat::*;

fn words(numbers: &[u32]) -> Vec<u8> {
    numbers.iter().flat_map(|n| n.to_be_bytes()).collect()
}

/// Every `accept_stat` of nfsserve. No case is left out: a further one would not compile.
fn number_of(stat: AcceptStat) -> u32 {
    match stat {
        AcceptStat::Success => 0,
        AcceptStat::ProgUnavail => 1,
        AcceptStat::ProgMismatch { .. } => 2,
        AcceptStat::ProcUnavail => 3,
        AcceptStat::GarbageArgs => 4,
    }
}

const ACCEPT: [AcceptStat; 5] = [
    AcceptStat::Success,
    AcceptStat::ProgUnavail,
    AcceptStat::ProgMismatch { low: 3, high: u32::MAX },
    AcceptStat::ProcUnavail,
    AcceptStat::GarbageArgs,
];

const CURRENT_ACCEPT: [current::AcceptStat; 6] = [
    current::AcceptStat::Success,
    current::AcceptStat::ProgUnavail,
    current::AcceptStat::ProgMismatch { low: 3, high: u32::MAX },
    current::AcceptStat::ProcUnavail,
    current::AcceptStat::GarbageArgs,
    current::AcceptStat::SystemErr,
];

/// Every `auth_stat` of nfsserve, which begin with 1. No case is left out: a further one would not compile.
fn number_of_auth(stat: AuthStat) -> u32 {
    match stat {
        AuthStat::BadCred => 1,
        AuthStat::RejectedCred => 2,
        AuthStat::BadVerf => 3,
        AuthStat::RejectedVerf => 4,
        AuthStat::TooWeak => 5,
    }
}

const AUTH: [AuthStat; 5] =
    [AuthStat::BadCred, AuthStat::RejectedCred, AuthStat::BadVerf, AuthStat::RejectedVerf, AuthStat::TooWeak];

const CURRENT_AUTH: [current::AuthStat; 15] = [
    current::AuthStat::Ok,
    current::AuthStat::BadCred,
    current::AuthStat::RejectedCred,
    current::AuthStat::BadVerf,
    current::AuthStat::RejectedVerf,
    current::AuthStat::TooWeak,
    current::AuthStat::InvalidResp,
    current::AuthStat::Failed,
    current::AuthStat::KerbGeneric,
    current::AuthStat::TimeExpire,
    current::AuthStat::TktFile,
    current::AuthStat::Decode,
    current::AuthStat::NetAddr,
    current::AuthStat::RpcsecGssCredProblem,
    current::AuthStat::RpcsecGssCtxProblem,
];

/// A reply that was accepted with this status, from place 4 on, and two words behind it.
fn accepted(status: u32, versions: &[u32]) -> Vec<u8> {
    words(&[&[7, 42, 1, 0, 2, 3, 0x0102_0300, status], versions, &[8, 9]].concat())
}

const VERF: Auth = Auth { flavor: AuthFlavor::Short, body: &[1, 2, 3] };

#[test]
fn accept_statuses_are_read_in_both_readings() {
    for status in (0..=8).chain([u32::MAX]) {
        let versions: &[u32] = if status == 2 { &[3, u32::MAX] } else { &[] };
        let message = accepted(status, versions);
        let next = message.len() - 8;

        let due = ACCEPT.get(status as usize).copied();
        let reply = Reply::Accepted { verf: VERF, stat: due.unwrap_or(AcceptStat::GarbageArgs) };
        let value = Message { xid: 42, body: Body::Reply(reply) };
        assert_eq!(Message::read(&message, 4), Ok(Reading { value, next, plain: status <= 4 }), "{status}");

        let due = CURRENT_ACCEPT.get(status as usize).copied();
        let reply = current::Reply::Accepted { verf: VERF, stat: due.unwrap_or(current::AcceptStat::GarbageArgs) };
        let value = current::Message { xid: 42, body: current::Body::Reply(reply) };
        assert_eq!(current::Message::read(&message, 4), Ok(Reading { value, next, plain: status <= 5 }), "{status}");

        // Cut in the status, or behind it, in the versions.
        for cut in 28..next {
            let place = cut / 4 * 4;
            let ends = Refusal::Ends { place, wanting: place + 4 - cut };
            assert_eq!(Message::read(&message[..cut], 4), Err(ends), "{status}");
            assert_eq!(current::Message::read(&message[..cut], 4), Err(ends), "{status}");
        }
    }
}

#[test]
fn authentication_numbers_are_read_in_both_readings() {
    for number in (0..=16).chain([u32::MAX]) {
        let message = words(&[7, 42, 1, 1, 1, number, 8]);
        let undeclared = Refusal::Undeclared { place: 20 };

        let due = AUTH.iter().find(|stat| **stat as u32 == number);
        assert_eq!(due.is_some(), (1..=5).contains(&number));
        let value = |stat: &AuthStat| Message { xid: 42, body: Body::Reply(Reply::AuthError(*stat)) };
        let due = due.map(|stat| Reading { value: value(stat), next: 24, plain: true }).ok_or(undeclared);
        assert_eq!(Message::read(&message, 4), due, "{number}");

        let due = CURRENT_AUTH.iter().find(|stat| **stat as u32 == number);
        assert_eq!(due.is_some(), number <= 14);
        let reply = |stat: &current::AuthStat| current::Body::Reply(current::Reply::AuthError(*stat));
        let value = |stat: &current::AuthStat| current::Message { xid: 42, body: reply(stat) };
        let due = due.map(|stat| Reading { value: value(stat), next: 24, plain: true }).ok_or(undeclared);
        assert_eq!(current::Message::read(&message, 4), due, "{number}");

        for cut in 20..24 {
            let ends = Refusal::Ends { place: 20, wanting: 24 - cut };
            assert_eq!(Message::read(&message[..cut], 4), Err(ends), "{number}");
            assert_eq!(current::Message::read(&message[..cut], 4), Err(ends), "{number}");
        }
    }
}

/// Every reply of the current reading, beside the words of a message with it.
fn replies() -> Vec<(current::Reply<'static>, Vec<u32>)> {
    let mut replies = Vec::new();
    for (stat, number) in CURRENT_ACCEPT.into_iter().zip(0..) {
        let versions: &[u32] = if number == 2 { &[3, u32::MAX] } else { &[] };
        let accepted = |verf: Auth<'static>| current::Reply::Accepted { verf, stat };
        replies.push((accepted(Auth::default()), [&[42, 1, 0, 0, 0, number], versions].concat()));
        replies.push((accepted(VERF), [&[42, 1, 0, 2, 3, 0x0102_0300, number], versions].concat()));
    }
    for (stat, number) in CURRENT_AUTH.into_iter().zip(0..) {
        replies.push((current::Reply::AuthError(stat), vec![42, 1, 1, 1, number]));
    }
    replies.push((current::Reply::RpcMismatch { low: 2, high: 3 }, vec![42, 1, 1, 0, 2, 3]));
    replies
}

#[test]
fn replies_are_written_and_read_back() {
    for (reply, numbers) in replies() {
        let message = words(&numbers);
        let size = message.len();
        let value = current::Message { xid: 42, body: current::Body::Reply(reply) };
        let mut out = vec![0xEE; size + 5];
        assert_eq!(reply.write(42, &mut out, 3), Ok(size + 3));
        assert_eq!((&out[..3], &out[3..size + 3], &out[size + 3..]), (&[0xEE; 3][..], &message[..], &[0xEE; 2][..]));
        assert_eq!(current::Message::read(&out, 3), Ok(Reading { value, next: size + 3, plain: true }));
        let mut again = vec![0xEE; size];
        assert_eq!(value.write(&mut again, 0), Ok(size));
        assert_eq!(again, message);

        let mut untouched = vec![0xEE; size];
        assert_eq!(reply.write(42, &mut untouched, 1), Err(Refusal::NoRoom { needed: size }));
        assert_eq!(value.write(&mut untouched, 1), Err(Refusal::NoRoom { needed: size }));
        assert_eq!(reply.write(42, &mut untouched, size + 1), Err(Refusal::PastEnd));
        assert_eq!(value.write(&mut untouched, size + 1), Err(Refusal::PastEnd));
        assert!(untouched.iter().all(|byte| *byte == 0xEE));

        // The kind of the current reading says the same, and nfsserve's where it has the case.
        let judged = Judged { next: size, plain: true, size };
        assert_eq!(judge(Kind::CurrentRpcMsg, &message, 0), Ok(judged), "{reply:?}");
        let known = Reply::try_from(reply).is_ok();
        assert_eq!(judge(Kind::RpcMsg, &message, 0) == Ok(judged), known, "{reply:?}");
    }
}

#[test]
fn calls_are_the_same_in_both_readings() {
    let call = Call { rpcvers: 2, prog: 100_003, vers: 3, proc: 6, cred: VERF, verf: Auth::default() };
    let message = current::Message { xid: 42, body: current::Body::Call(call) };
    let mut out = [0xEE; 45];
    assert_eq!(message.write(&mut out, 1), Ok(45));
    assert_eq!(out[1..], words(&[42, 0, 2, 100_003, 3, 6, 2, 3, 0x0102_0300, 0, 0]));
    assert_eq!(current::Message::read(&out, 1), Ok(Reading { value: message, next: 45, plain: true }));
    let value = Message { xid: 42, body: Body::Call(call) };
    assert_eq!(Message::read(&out, 1), Ok(Reading { value, next: 45, plain: true }));

    // A flavor above 3, and what the message lacks.
    let (flavor, cut) = (words(&[42, 0, 2, 100_003, 3, 6, 6, 0, 0, 0]), words(&[42, 0, 2]));
    assert_eq!(current::Message::read(&flavor, 0), Err(Refusal::Undeclared { place: 24 }));
    assert_eq!(current::Message::read(&cut, 0), Err(Refusal::Ends { place: 12, wanting: 4 }));
    assert_eq!(current::Message::read(&cut, 13), Err(Refusal::PastEnd));
}

#[test]
fn undeclared_tags_are_read_as_in_nfsserve() {
    let null = current::Reply::Accepted { verf: Auth::default(), stat: current::AcceptStat::Success };
    let cases = [
        (vec![42, 2], current::Body::Call(Call::default())),
        (vec![42, 1, 2], current::Body::Reply(null)),
        (vec![42, 1, 1, 2], current::Body::Reply(current::Reply::RpcMismatch { low: 0, high: 0 })),
    ];
    for (numbers, body) in cases {
        let message = words(&numbers);
        let read = current::Message::read(&message, 0).unwrap();
        assert_eq!(read, Reading { value: current::Message { xid: 42, body }, next: message.len(), plain: false });
        let Reading { value, next, plain } = Message::read(&message, 0).unwrap();
        assert_eq!(read, Reading { value: value.into(), next, plain });
    }
}

#[test]
fn what_one_reading_holds_is_converted_to_the_other() {
    for stat in ACCEPT {
        let there = current::AcceptStat::from(stat);
        assert_eq!(there, CURRENT_ACCEPT[number_of(stat) as usize]);
        assert_eq!(AcceptStat::try_from(there), Ok(stat));
    }
    let new: current::OnlyCurrent = AcceptStat::try_from(current::AcceptStat::SystemErr).unwrap_err();
    assert_eq!(new.to_string(), "that is a case of the current reading alone");

    for stat in AUTH {
        let there = current::AuthStat::from(stat);
        assert_eq!((stat as u32, there as u32), (number_of_auth(stat), number_of_auth(stat)));
        assert_eq!(there, CURRENT_AUTH[number_of_auth(stat) as usize]);
        assert_eq!(AuthStat::try_from(there), Ok(stat));
    }
    for (stat, number) in CURRENT_AUTH.into_iter().zip(0..) {
        assert_eq!(stat as u32, number);
        let back = AuthStat::try_from(stat);
        assert_eq!(back.map(number_of_auth), if (1..=5).contains(&number) { Ok(number) } else { Err(new) });
    }

    let mut known = 0;
    for (reply, numbers) in replies() {
        let body = current::Body::Reply(reply);
        let message = current::Message { xid: 42, body };
        let is_new = match reply {
            current::Reply::Accepted { stat, .. } => stat == current::AcceptStat::SystemErr,
            current::Reply::AuthError(why) => !(1..=5).contains(&(why as u32)),
            current::Reply::RpcMismatch { .. } => false,
        };
        let back = Reply::try_from(reply);
        if is_new {
            assert_eq!((back, Body::try_from(body), Message::try_from(message)), (Err(new), Err(new), Err(new)));
            continue;
        }
        let back = back.unwrap();
        assert_eq!(Body::try_from(body), Ok(Body::Reply(back)));
        assert_eq!(Message::try_from(message), Ok(Message { xid: 42, body: Body::Reply(back) }));
        assert_eq!(current::Reply::from(back), reply);
        assert_eq!(current::Body::from(Body::Reply(back)), body);
        assert_eq!(current::Message::from(Message { xid: 42, body: Body::Reply(back) }), message);
        // It is the same message: both write the same bytes.
        let mut out = [0xEE; 40];
        assert_eq!(back.write(42, &mut out, 0), Ok(numbers.len() * 4));
        assert_eq!(out[..numbers.len() * 4], words(&numbers));
        known += 1;
    }
    // Five statuses by two verifiers, five authentication numbers, and a mismatch of versions.
    assert_eq!(known, 16);

    let call = Call { rpcvers: 2, prog: 100_003, vers: 3, proc: 6, ..Call::default() };
    let message = Message { xid: 42, body: Body::Call(call) };
    let there = current::Message { xid: 42, body: current::Body::Call(call) };
    assert_eq!((current::Message::from(message), Message::try_from(there)), (there, Ok(message)));
    assert_eq!((current::Body::from(message.body), Body::try_from(there.body)), (there.body, Ok(message.body)));
}

#[test]
fn programs_are_chosen_in_both_readings() {
    let reply = |numbers: &[u32]| Ok(Choice::Reply(words(numbers).try_into().expect("24 bytes")));
    // Another version of RPC, in a call that is known and in one that comes of an undeclared tag.
    for message in [words(&[42, 0, 3, 100_003, 3, 6, 0, 0, 0, 0]), words(&[42, 2])] {
        for seen in [false, true] {
            assert_eq!(choose(&message, seen), reply(&[42, 1, 1, 0, 0, 0]));
            assert_eq!(current::choose(&message, seen), reply(&[42, 1, 1, 0, 2, 2]));
        }
    }
    let due = "0000002a0000000100000001000000000000000200000002";
    match current::choose(&words(&[42, 2]), false) {
        Ok(Choice::Reply(bytes)) => assert_eq!(bytes.map(|byte| format!("{byte:02x}")).concat(), due),
        other => panic!("{other:?}"),
    }

    // A reply that one reading takes and the other refuses: 8 is due, and 2.
    for number in (0..=16).chain([u32::MAX]) {
        let message = words(&[42, 1, 1, 1, number]);
        let due = |known: bool| Err(if known { Refusal::ReplyCame } else { Refusal::Undeclared { place: 16 } });
        assert_eq!(choose(&message, false), due((1..=5).contains(&number)), "{number}");
        assert_eq!(current::choose(&message, false), due(number <= 14), "{number}");
    }
    let gss = words(&[42, 1, 1, 1, 13]);
    assert_eq!(choose(&gss, false).map_err(Refusal::number), Err(2));
    assert_eq!(current::choose(&gss, false).map_err(Refusal::number), Err(8));

    // All else is the same: another program, a hand-over, silence, and refusals.
    let unix = words(&[42, 0, 2, 100_005, 3, 1, 1, 32, 9, 2, 0x6869_0000, 1, 2, 2, 4, 5, 0, 0]);
    let gids = words(&[4, 5]);
    let caller = AuthUnix { stamp: 9, machinename: b"hi", uid: 1, gid: 2, gids: Words::new(&gids).unwrap() };
    let handed = Ok(Choice::HandOver { prog: 100_005, vers: 3, proc: 1, arguments: 72, caller: Some(caller) });
    let cases = [
        (words(&[42, 0, 2, 7, 3, 6, 0, 0, 0, 0]), false, reply(&[42, 1, 0, 0, 0, 1])),
        (unix.clone(), false, handed),
        (unix, true, Ok(Choice::Silence)),
        (words(&[42, 1, 0, 0, 0, 5]), false, Err(Refusal::ReplyCame)),
        (words(&[42, 0, 2, 7, 3, 6, 4, 0, 0, 0]), false, Err(Refusal::Undeclared { place: 24 })),
        (words(&[42, 0]), false, Err(Refusal::Ends { place: 8, wanting: 4 })),
        (words(&[42, 0, 2, 100_005, 3, 1, 1, 16, 9, 0, 1, 2, 0, 0]), false, Err(Refusal::Ends { place: 48, wanting: 4 })),
    ];
    for (message, seen, due) in cases {
        assert_eq!(choose(&message, seen), due);
        assert_eq!(current::choose(&message, seen), due);
    }
}

#[test]
fn kinds_of_both_readings_differ_by_their_lists() {
    // A word of each number, as a closed list and as the tag of a body.
    for number in (0..=16).chain([u32::MAX]) {
        let (word, undeclared) = (words(&[number]), Err(Refusal::Undeclared { place: 0 }));
        let plain = Ok(Judged { next: 4, plain: true, size: 4 });
        for (kind, known) in [
            (Kind::AcceptStat, number <= 4),
            (Kind::CurrentAcceptStat, number <= 5),
            (Kind::AuthStat, (1..=5).contains(&number)),
            (Kind::CurrentAuthStat, number <= 14),
        ] {
            assert_eq!(judge(kind, &word, 0), if known { plain } else { undeclared }, "{kind} {number}");
        }
        if number == 2 {
            continue;
        }
        for (kind, most) in [(Kind::AcceptBody, 4), (Kind::CurrentAcceptBody, 5)] {
            let mut out = [0xEE; 4];
            let done = Ok(Rewritten { next: 4, plain: number <= most, size: 4 });
            assert_eq!(rewrite(kind, &word, 0, &mut out), done, "{kind} {number}");
            assert_eq!(out[..], words(&[if number <= most { number } else { 4 }]), "{kind} {number}");
        }
    }
}
