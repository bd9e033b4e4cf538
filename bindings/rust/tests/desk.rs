//! The crate against the static library, wrong inputs first, and its sizes and words against include/biscuit.h.

use biscuit::{raw, Desk, Envelope, PublicKey, Refusal, SecretKey, Set, Signature, MESSAGE_LIMIT};

const HEADER: &str = include_str!("../../../include/biscuit.h");

fn pair(desk: &mut Desk, set: Set) -> (SecretKey, PublicKey) {
    let s = set.seed_len();
    desk.make_keys(set, &vec![1; s], &vec![2; s]).unwrap()
}

#[test]
fn seeds_of_another_length() {
    let mut desk = Desk::new();
    for set in Set::ALL {
        let s = set.seed_len();
        for (circuit, secret) in [(s - 1, s), (s + 1, s), (s, s - 1), (s, s + 1), (0, s), (s, 0)] {
            let made = desk.make_keys(set, &vec![1; circuit], &vec![2; secret]);
            assert_eq!(made.map(|_| ()), Err(Refusal::SeedOrRandomLength), "{set}: {circuit}, {secret}");
        }
    }
}

#[test]
fn bytes_of_another_length() {
    for set in Set::ALL {
        for more in [0, 2] {
            let of = |len: usize| vec![0; len - 1 + more];
            assert_eq!(SecretKey::from_bytes(set, &of(set.secret_key_len())).map(|_| ()), Err(Refusal::KeyLength));
            assert_eq!(PublicKey::from_bytes(set, &of(set.public_key_len())), Err(Refusal::KeyLength));
            assert_eq!(Signature::from_bytes(set, &of(set.signature_len())), Err(Refusal::SignatureLength));
        }
    }
}

#[test]
fn refusals_of_signing_and_verifying() {
    let mut desk = Desk::new();
    let set = Set::Biscuit128f;
    let (secret, public) = pair(&mut desk, set);
    let long = vec![0; MESSAGE_LIMIT + 1];
    assert_eq!(desk.sign(&secret, &long, None), Err(Refusal::MessageTooLong));
    for len in [0, 1, set.seed_len(), set.random_len() - 1, set.random_len() + 1] {
        assert_eq!(desk.sign(&secret, b"", Some(&vec![3; len])), Err(Refusal::SeedOrRandomLength));
    }
    let mut bytes = secret.as_bytes().to_vec();
    bytes[20] ^= 1;
    let damaged = SecretKey::from_bytes(set, &bytes).unwrap();
    assert_eq!(desk.sign(&damaged, b"", None), Err(Refusal::KeyNotConsistent));
    assert_eq!(desk.public_half(&damaged), Err(Refusal::KeyNotConsistent));

    let signature = desk.sign(&secret, b"", None).unwrap();
    assert_eq!(desk.verify(&public, &long, &signature), Err(Refusal::MessageTooLong));
    let (_, other) = pair(&mut desk, Set::Biscuit128s);
    assert_eq!(desk.verify(&other, b"", &signature), Err(Refusal::SignatureLength));
    let (_, stranger) = desk.make_keys(set, &[1; 16], &[3; 16]).unwrap();
    assert_eq!(desk.verify(&stranger, b"", &signature), Err(Refusal::NotAccepted));
}

#[test]
fn every_set_signs_and_verifies() {
    let mut desk = Desk::new();
    let message = vec![7; MESSAGE_LIMIT];
    for set in Set::ALL {
        let (secret, public) = pair(&mut desk, set);
        assert_eq!(desk.public_half(&secret).as_ref(), Ok(&public));
        let random = vec![9; set.random_len()];
        for (message, random) in [(&b""[..], None), (&message[..], Some(&random[..]))] {
            let signature = desk.sign(&secret, message, random).unwrap();
            assert_eq!(desk.verify(&public, message, &signature), Ok(()));
            let mut bytes = signature.as_bytes().to_vec();
            *bytes.last_mut().unwrap() ^= 0x10;
            let damaged = Signature::from_bytes(set, &bytes).unwrap();
            assert_eq!(desk.verify(&public, message, &damaged), Err(Refusal::NotAccepted));
        }
        let again = SecretKey::from_bytes(set, secret.as_bytes()).unwrap();
        assert_eq!(desk.sign(&again, b"", None), desk.sign(&secret, b"", None));
    }
}

#[test]
fn envelopes() {
    let mut desk = Desk::new();
    let numbers = |start: [u8; 3], len: usize| {
        let mut bytes = vec![0; len.max(3)];
        bytes[..3].copy_from_slice(&start);
        Envelope::read(&bytes[..len]).map(|_| ()).map_err(Refusal::number)
    };
    for len in 0..3 {
        assert_eq!(numbers([0x12, 0, 0], len), Err(10));
    }
    assert_eq!(numbers([0x00, 0xff, 0xff], 3), Err(11));
    assert_eq!(numbers([0x10, 0xff, 0xff], 3), Err(1));
    assert_eq!(numbers([0x17, 0, 0], 6779), Err(1));
    assert_eq!(numbers([0x12, 0x80, 0x01], 3), Err(3));
    for set in Set::ALL {
        let whole = 3 + set.public_key_len() + set.signature_len() + 0x8000;
        let start = [0x10 | set.number() as u8, 0x80, 0];
        assert_eq!([whole - 1, whole, whole + 1].map(|len| numbers(start, len)), [Err(10), Ok(()), Err(10)]);

        let (secret, public) = pair(&mut desk, set);
        let mut envelope = desk.sign_envelope(&secret, b"take 3", None).unwrap();
        assert_eq!(envelope[..3], [0x10 | set.number() as u8, 0, 6]);
        let parts = desk.check(&envelope).unwrap();
        assert_eq!((parts.set(), parts.public_key(), parts.message()), (set, public, &b"take 3"[..]));
        *envelope.last_mut().unwrap() ^= 1;
        assert_eq!(desk.check(&envelope), Err(Refusal::NotAccepted));
        envelope.push(0);
        assert_eq!(desk.check(&envelope), Err(Refusal::EnvelopeLength));
    }
    let (secret, _) = pair(&mut desk, Set::Biscuit128s);
    let (_, public) = pair(&mut desk, Set::Biscuit128f);
    let signature = desk.sign(&secret, b"", None).unwrap();
    assert_eq!(Envelope::write(&public, &signature, b""), Err(Refusal::SignatureLength));
    assert_eq!(desk.sign_envelope(&secret, &vec![0; MESSAGE_LIMIT + 1], None), Err(Refusal::MessageTooLong));
}

#[test]
fn the_raw_calls_take_every_number() {
    for set in [0, 7, 257, usize::MAX] {
        let mut work = [0xa5; 10];
        assert_eq!(raw::verify(set, &[], &[], &[], &mut work), Refusal::NoSuchSet.number());
        assert_eq!(work, [0xa5; 10]);
    }
}

/// The sizes of a set under the names that the header for C gives them.
fn sizes(set: Set) -> [(&'static str, usize); 5] {
    [
        ("SEED", set.seed_len()),
        ("SECRET_KEY", set.secret_key_len()),
        ("PUBLIC_KEY", set.public_key_len()),
        ("SIGNATURE", set.signature_len()),
        ("RANDOM", set.random_len()),
    ]
}

#[test]
fn the_header_for_c_has_the_same_sizes_and_words() {
    for set in Set::ALL {
        let name = set.name().to_uppercase();
        for (what, size) in sizes(set) {
            assert!(HEADER.contains(&format!("#define BISCUIT_{name}_{what}_SIZE {size}u\n")), "{set}: {what}");
        }
        assert!(HEADER.contains(&format!("BISCUIT_{name} = {}", set.number())));
    }
    for (what, size) in sizes(Set::Biscuit256f) {
        assert!(HEADER.contains(&format!("#define BISCUIT_LARGEST_{what}_SIZE {size}u\n")), "{what}");
    }
    for refusal in Refusal::ALL {
        let constant = format!("{refusal:?}").chars().flat_map(|c| if c.is_uppercase() { vec!['_', c] } else { vec![c.to_ascii_uppercase()] }).collect::<String>();
        assert!(HEADER.contains(&format!("    BISCUIT{constant} = {}", refusal.number())), "{constant}");
        assert!(HEADER.contains(&format!("    case BISCUIT{constant}: return \"{}\";\n", refusal.words())), "{constant}");
    }
    assert!(HEADER.contains(&format!("#define BISCUIT_MESSAGE_LIMIT {MESSAGE_LIMIT}u\n")));
}

#[test]
fn a_secret_key_is_not_printed() {
    let (secret, _) = pair(&mut Desk::new(), Set::Biscuit256f);
    assert_eq!(format!("{secret:?}"), "SecretKey(256f, ..)");
}
