//! Document 003 (W0RLI specification). Its sessions use the old send commands,
//! which 01 doesn't cover: what 01 can judge is where they part.

use super::{both_roles, partner, us, Example};
use crate::refusal::{LINE_NOT_ALLOWED, NOT_SID, NO_FORWARDING};

pub(super) fn all() -> Vec<Example> {
    let one_role = vec![slave_without_f(), master_without_f(), old_system()];
    [one_role, both_roles(vec![example_sid(), send_command(), null_command()])].concat()
}

/// The introduction's session, with us as its master: the slave's SID has no F.
fn slave_without_f() -> Example {
    let script = vec![partner("[ZXF-3.21-H$]\r")];
    Example::new("003, introduction, slave calls itself ZXF", true, script).refused(NO_FORWARDING)
}

/// The same with us as its slave.
fn master_without_f() -> Example {
    let script = vec![us("[NOD-1-B1FH$]\r>\r"), partner("[RLI-19.18-HIX$]\r")];
    Example::new("003, introduction, master calls itself RLI", false, script).refused(NO_FORWARDING)
}

/// "EXAMPLE: [ZFJ-2.3-H$]"
fn example_sid() -> Example {
    let script = vec![partner("[ZFJ-2.3-H$]\r")];
    Example::new("003, its SID", true, script).refused(NO_FORWARDING)
}

/// Section 4: "If the SLAVE does not return a SID", here a prompt comes first.
fn old_system() -> Example {
    Example::new("003, old system", true, vec![partner("N9ZZZ >\r")]).refused(NOT_SID)
}

/// Its send command to an end that forwards by 002.
fn send_command() -> Example {
    let line = "SB WANT @ ALLCAN < N6ZFJ $4567_N0ARY\r";
    let script = vec![us("[NOD-1-B1FH$]\r>\r"), partner(["[RLI-19.18-FHIX$]\r", line].concat())];
    Example::new("003, send command", false, script).refused(LINE_NOT_ALLOWED)
}

/// Feature I: "; W5SMM de W0RLI. The receiving station must ignore such lines."
/// The prompt is the introduction's; lines end with CR LF.
fn null_command() -> Example {
    let null = "; W5SMM de W0RLI\r\n";
    Example::new(
        "003, null commands",
        true,
        vec![
            partner([null, "[ZXF-3.21-FHI$]\r\n", null, "\r\nN9ZZZ >\r\n"].concat()),
            us("[NOD-1-B1FH$]\rFF\r"),
            partner([null, "FB P W5SMM W0RLI W0RLI 1_W5SMM 3\r\n", null, "F>\r\n"].concat()),
            us("FS +\r"),
            partner("message subject\r73\r\x1A\r\n"),
            us("FF\r"),
            partner([null, "FQ\r"].concat()),
        ],
    )
    .inbox(&[(b"1_W5SMM", b"message subject", b"73\r")])
}
