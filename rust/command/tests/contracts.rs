//! `citronreef value`, `tick` and `bracket`: what they print, and why they refuse.

mod process;
mod table;

use process::{run, Ran};

#[test]
fn contracts() {
    let words = table::words();
    for (call, number, told) in [
        (["value", "ZZ", "95.00"], 4, "the code here is ZZ"),
        (["tick", "IR", "100.01"], 6, "the price here is 100.01"),
        (["value", "IR", "95.005"], 7, "the price here is 95.005, and the tick of IR is 0.01"),
        (["bracket", "YT", "940001u"], 7, "the price here is 94.0001, and the tick of YT is 0.005"),
        (["tick", "IR", "100.00"], 15, "one tick above 100.00 is 100.01"),
    ] {
        let Ran { status, out, err } = run(&call, b"");
        assert_eq!((status, out.as_str()), (1, ""));
        assert_eq!(err, format!("refused {number}: {}; {told}\n", words[number - 1]));
    }
    let Ran { status, out, err } = run(&["bracket", "IR", "95.00"], b"");
    assert_eq!((status, out.as_str()), (1, ""));
    assert_eq!(err, "refused 4: IR is no bond, and only a bond has a bracket\n");
    for (call, printed) in [
        (["value", "IR", "95.00"], "987821.38 AUD\n"),
        (["value", "IR", "95.01"], "987845.44 AUD\n"),
        (["value", "BB", "950100u"], "987845.44 NZD\n"),
        (["tick", "IR", "95.00"], "24.06 AUD\n"),
        (["tick", "IB", "95.000"], "12.33 AUD\n"),
        (["bracket", "YT", "94.000"], "100.00000153\n"),
        (["value", "XX", "100.0"], "90000.00 AUD\n"),
    ] {
        let Ran { status, out, err } = run(&call, b"");
        assert_eq!((status, out.as_str(), err.as_str()), (0, printed, ""));
    }
}
