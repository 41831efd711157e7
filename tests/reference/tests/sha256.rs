//! SHA-256 of the reference: the examples of FIPS 180-4, and every way in which a message can end in its last
//! block.

use reference::sha256::digest;

fn hex(bytes: &[u8]) -> String {
    bytes.iter().map(|byte| format!("{byte:02x}")).collect()
}

/// Three messages of at most one block, one of two, and a million of one letter.
#[test]
fn the_examples() {
    let million = "a".repeat(1_000_000);
    let one = "abcdbcdecdefdefgefghfghighijhijkijkljklmklmnlmnomnopnopq";
    let two = "abcdefghbcdefghicdefghijdefghijkefghijklfghijklmghijklmn\
               hijklmnoijklmnopjklmnopqklmnopqrlmnopqrsmnopqrstnopqrstu";
    for (message, due) in [
        (
            "",
            "e3b0c44298fc1c149afbf4c8996fb92427ae41e4649b934ca495991b7852b855",
        ),
        (
            "abc",
            "ba7816bf8f01cfea414140de5dae2223b00361a396177a9cb410ff61f20015ad",
        ),
        (
            one,
            "248d6a61d20638b8e5c026930c3e6039a33ce45964ff2167f6ecedd419db06c1",
        ),
        (
            two,
            "cf5b16a778af8380036ce59e7b0492370b249b11e8f07a51afac45037afee9d1",
        ),
        (
            &million,
            "cdc76e5c9914fb9281a1c7e284d73e67f1809a48a497200e046d39ccc7112cd0",
        ),
    ] {
        assert_eq!(
            hex(&digest(message.as_bytes())),
            due,
            "{} bytes",
            message.len()
        );
    }
}

/// The digests of the bytes 0, 1, 2 and so on, from none of them to 200, one after another, hashed: what
/// sha256sum makes of them.
#[test]
fn every_length() {
    let bytes: Vec<u8> = (0..200).collect();
    let digests = (0..=200).flat_map(|n| digest(&bytes[..n]));
    let due = "64ef7c229fce2408b5336b6a542fea0e078c3a87d2da85cb3fc52e2008b65021";
    assert_eq!(hex(&digest(&digests.collect::<Vec<u8>>())), due);
}
