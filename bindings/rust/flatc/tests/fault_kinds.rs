//! The kinds of faults are those that the library has names for.
use flatc::FaultKind;
use flatc_sys::{flatc_fault_name, flatc_name};

/// The library's name of a fault.
fn library_name(number: u8) -> Option<String> {
    let mut name = flatc_name { text: [0; 32] };
    // SAFETY: flatc.h: a valid struct for the name.
    let is_fault = unsafe { flatc_fault_name(number, &mut name) };
    let text = name.text.split(|&byte| byte == 0).next().unwrap();
    is_fault.then(|| String::from_utf8(text.to_vec()).unwrap())
}

#[test]
fn each_fault_has_a_kind_with_its_name() {
    let mut kinds = 0;
    for number in 0..=255 {
        let kind = FaultKind::from_number(number);
        // Memory that runs out is a status of its own.
        let wanted = library_name(number).filter(|it| it != "Memory");
        assert_eq!(kind.map(FaultKind::name), wanted.as_deref(), "{number}");
        assert_eq!(kind.map_or(number, FaultKind::number), number);
        kinds += usize::from(kind.is_some());
    }
    assert!(kinds > 50, "{kinds}");
}

#[test]
fn a_kind_is_called_like_its_fault() {
    for kind in (0..=255).filter_map(FaultKind::from_number) {
        let shown = format!("{kind:?}");
        let rest = shown.strip_suffix(kind.name());
        assert!(matches!(rest, Some("" | "Json" | "Buffer")), "{shown}");
    }
}
