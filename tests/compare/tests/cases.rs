//! Cases A to L of document 01, with the report of document 02, W6, through the static library, byte
//! by byte, and the model beside it.

use compare::lists::Both;
use compare::Lent;
use model::Fed;

type Pair = Both<Lent>;

const A: ([u8; 3], [u8; 3]) = ([0x02, 0x01, 0x28], [0x02, 0x00, 0x01]);
const B: ([u8; 6], [u8; 6]) =
    ([0x05, 0x05, 0x01, 0x01, 0x07, 0x00], [0x05, 0x00, 0x80, 0x01, 0x80, 0x01]);

/// Feeds a whole frame; gives its answer.
fn answer(both: &mut Pair, station: u32, frame: &[u8]) -> Vec<u8> {
    let fed = both.feed(station, frame);
    assert_eq!((fed.refusal, fed.used), (0, frame.len()));
    fed.answer
}

/// The start, then cases A and B.
fn after_b() -> Pair {
    let mut both = Pair::start();
    assert_eq!(answer(&mut both, 0, &A.0), A.1);
    assert_eq!(answer(&mut both, 0, &B.0), B.1);
    both
}

#[test]
fn case_a_opens_the_own_token() {
    assert_eq!(answer(&mut Pair::start(), 0, &A.0), A.1);
}

#[test]
fn case_b_reports_that_tcb_was_present_and_enabled() {
    let both = after_b();
    assert!(!both.model.primary(0).privileges.holds(model::TCB));
}

#[test]
fn case_c_reports_the_four_words() {
    let expected = [
        0x14, 0x00, 0xFC, 0xFF, 0xFF, 0xFF, 0xFF, 0x03, 0xFC, 0xFE, 0xFF, 0xFF, 0xFF, 0x03, 0xFC,
        0xFF, 0xFF, 0xFF, 0xFF, 0x03, 0x00,
    ];
    assert_eq!(answer(&mut after_b(), 0, &[0x04, 0x04, 0x01, 0x03, 0x40]), expected);
}

#[test]
fn case_d_refuses_room_18_and_takes_19() {
    let mut both = after_b();
    assert_eq!(answer(&mut both, 0, &[0x04, 0x04, 0x01, 0x03, 18]), [0x02, 0x09, 0x13]);
    assert_eq!(answer(&mut both, 0, &[0x04, 0x04, 0x01, 0x03, 19]).len(), 21);
}

#[test]
fn case_e_takes_length_2048() {
    let mut both = Pair::start();
    assert_eq!(answer(&mut both, 0, &[0x80, 0x10]), []);
    assert_eq!(answer(&mut both, 0, &[0; 2047]), []);
    assert_eq!(answer(&mut both, 0, &[0]), [0x01, 0x01]);
}

#[test]
fn case_f_breaks_at_length_2049() {
    let mut both = Pair::start();
    let broken = Fed { refusal: 0, used: 2, answer: vec![0x01, 0x0A] };
    assert_eq!(both.feed(0, &[0x81, 0x10, 0x01]), broken);
    assert_eq!(answer(&mut both, 0, &[0x02, 0x01, 0x28]), []);
    assert_eq!(both.reconnect(0), 0);
    assert_eq!(answer(&mut both, 0, &A.0), A.1);
}

#[test]
fn case_g_refuses_the_handle_to_station_1() {
    assert_eq!(answer(&mut after_b(), 1, &[0x04, 0x04, 0x01, 0x03, 0x40]), [0x01, 0x02]);
}

#[test]
fn case_h_opens_all_rights_and_refuses_0x10() {
    let mut both = Pair::start();
    assert_eq!(answer(&mut both, 0, &[0x03, 0x01, 0xEF, 0x03]), [0x02, 0x00, 0x01]);
    assert_eq!(answer(&mut both, 0, &[0x02, 0x01, 0x10]), [0x01, 0x05]);
}

#[test]
fn case_i_knows_privilege_36_and_not_37() {
    let mut both = after_b();
    let frame = |privilege| [0x05, 0x05, 0x01, 0x01, privilege, 0x00];
    let bit_36 = [0x80, 0x80, 0x80, 0x80, 0x80, 0x02];
    let report = [&[0x0D, 0x00][..], &bit_36, &bit_36].concat();
    assert_eq!(answer(&mut both, 0, &frame(36)), report);
    assert_eq!(answer(&mut both, 0, &frame(37)), [0x01, 0x05]);
}

#[test]
fn case_j_refuses_a_33rd_handle() {
    let mut both = Pair::start();
    for count in 1..=32 {
        assert_eq!(answer(&mut both, u32::from(count % 8), &A.0), [0x02, 0x00, count]);
    }
    assert_eq!(answer(&mut both, 0, &A.0), [0x01, 0x08]);
}

#[test]
fn case_k_refuses_a_number_not_in_its_shortest_form() {
    let mut both = Pair::start();
    assert_eq!(answer(&mut both, 0, &[0x02, 0x80, 0x00]), [0x01, 0x01]);
    assert_eq!(answer(&mut both, 0, &[0x03, 0x01, 0x80, 0x00]), [0x01, 0x01]);
}

#[test]
fn case_l_steps_modified_only_at_the_second_removal() {
    let mut both = Pair::start();
    let remove = [0x05, 0x05, 0x01, 0x01, 0x07, 0x04];
    assert_eq!(answer(&mut both, 0, &A.0), A.1);
    assert_eq!(answer(&mut both, 0, &remove), B.1);
    let mut expected = both.model.clone();
    expected.tokens[0].as_mut().expect("token 1").step_modified();
    assert_eq!(answer(&mut both, 0, &remove), [0x03, 0x00, 0x00, 0x00]);
    assert_eq!(both.model, expected);
}
