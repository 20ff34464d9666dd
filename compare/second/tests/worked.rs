//! "Worked images (hexadecimal; W = 16, default limit)".

mod common;
use common::*;
use second::{line, stays_typed, End};

const P2: &str = "01 00 00 00 02 03 02 03 00 06 08 01 00 00 02 00";
const P6: &str = "01 01 01 02 00 01 00 01 00 02 01 00 00 01 01 01 00 01 01";
const P10: &str = "01 00 01 01 00 00 00 04 06 05 01 00 09 00";

#[test]
fn p1() {
    assert_eq!(ask(&hex("01 00 00 00 00 05 00")), value(5, INT, 0, 0));
}

#[test]
fn p2() {
    assert_eq!(ask(&hex(P2)), value(0, INT, 4, 0));
    assert_eq!(line(&ask(&hex(P2))), "value 0 int steps 4 unchecked 0");
}

#[test]
fn p2_with_3_words() {
    assert_eq!(ask_in(&hex(P2), 3), value(0, INT, 4, 0));
}

#[test]
fn p2_with_limit_3() {
    assert_eq!(ask_limit(&hex(P2), 3), ran(End::More, 3, 0));
}

#[test]
fn p3() {
    let image = hex("01 00 00 00 02 03 02 03 00 06 08 01 00 00 03 00");
    assert_eq!(ask(&image), ran(End::Bounds, 4, 0));
}

#[test]
fn p4() {
    assert_eq!(ask_in(&hex(P2), 2), ran(End::Room, 1, 0));
}

#[test]
fn p5() {
    let image = hex("01 01 01 02 00 01 00 01 00 00 02 03 01 00 07 09 01 01 00 01 00");
    assert_eq!(ask(&image), value(1, strukt(C, 0), 4, 0));
    assert_eq!(line(&ask(&image)), "value 1 c.struct.0 steps 4 unchecked 0");
}

#[test]
fn p6() {
    assert_eq!(ask(&hex(P6)), value(1, strukt(C, 0), 0, 0));
}

#[test]
fn p7() {
    let image = hex("01 01 01 02 00 01 00 01 00 02 01 00 00 01 01 00 00 01 01");
    assert_eq!(ask(&image), refused(10, 0));
}

#[test]
fn p8() {
    let image = hex("01 00 01 00 00 00 00 07 00 00 01 00 07 00");
    assert_eq!(ask(&image), ran(End::Null, 1, 0));
}

#[test]
fn p9() {
    let image = hex("01 00 01 00 02 00 00 00 06 00 05 01");
    assert_eq!(ask(&image), ran(End::Bounds, 1, 0));
}

#[test]
fn p9_with_00_for_05() {
    let image = hex("01 00 01 00 02 00 00 00 06 00 00 01");
    assert_eq!(ask(&image), ran(End::Null, 1, 0));
}

#[test]
fn p10() {
    assert_eq!(ask(&hex(P10)), ran(End::Stuck, 1, 1));
}

#[test]
fn p11() {
    let image = hex("01 00 01 01 00 00 00 06 05 01 00 09 00");
    assert_eq!(ask(&image), refused(9, 0));
}

#[test]
fn p12() {
    let image = hex("01 00 01 00 00 00 00 02 04 05 01 00 09 00 06 01 00");
    assert_eq!(ask(&image), ran(End::Stuck, 3, 1));
}

#[test]
fn p13() {
    let image = hex("01 00 00 00 08 00 FF FF FF FF 0F 00 00 01 00");
    assert_eq!(ask(&image), value(0, INT, 1, 0));
}

#[test]
fn p14() {
    assert_eq!(ask(&hex("01 00 00 00 00 85 00 00")), refused(2, 5));
}

#[test]
fn empty_input() {
    assert_eq!(ask(&[]), refused(1, 0));
    assert_eq!(line(&ask(&[])), "refused 1 at 0");
}

#[test]
fn p2_final_heap() {
    let (_, heap) = ask_heap(&hex(P2), 4, 100_000);
    let zero = Some((0, INT));
    assert_eq!(heap, vec![zero, zero, zero, None]);
}

#[test]
fn p5_final_heap_is_the_paper_s_cyclic_list() {
    let image = hex("01 01 01 02 00 01 00 01 00 00 02 03 01 00 07 09 01 01 00 01 00");
    let (_, heap) = ask_heap(&image, 3, 100_000);
    assert_eq!(heap, vec![Some((0, INT)), Some((1, strukt(C, 0))), None]);
}

#[test]
fn the_writer_of_the_tests_writes_the_worked_images() {
    let p2 = bare(let_in(malloc(to_array(3, 0)), read(sum(var(0), int(2)))));
    assert_eq!(p2, hex(P2));
    let p6 = image(
        &[vec![0, 1]],
        &[c(to_struct(0))],
        &[(1, 0, 0), (1, 1, 1)],
        lit(1, 1),
    );
    assert_eq!(p6, hex(P6));
    let p10 = image(&[], &[u(to_word(0))], &[], unchecked(read(cast(1, int(9)))));
    assert_eq!(p10, hex(P10));
}

#[test]
fn the_worked_images_stay_typed() {
    for image in [P2, P6, P10] {
        assert_eq!(stays_typed(&hex(image), 16, 100_000), Ok(()));
        assert_eq!(stays_typed(&hex(image), 2, 100_000), Ok(()));
    }
}

#[test]
fn every_beginning_of_a_worked_image_is_refused_1_at_its_length() {
    for text in [P2, P6, P10] {
        let image = hex(text);
        for length in 0..image.len() {
            assert_eq!(ask(&image[..length]), refused(1, length));
        }
    }
}

#[test]
fn a_byte_behind_a_worked_image_is_refused_8_at_its_place() {
    for text in [P2, P6, P10] {
        let mut image = hex(text);
        let place = image.len();
        image.push(0);
        assert_eq!(ask(&image), refused(8, place));
        image.push(0x80);
        assert_eq!(ask(&image), refused(8, place));
    }
}
