//! The attributes of flow samples.

use conformance::attribute_cases::attribute_cases;
use conformance::attributes::{attributes, exact_flow_sample};

#[test]
fn situations_have_the_values_stated() {
    let mut wrong = Vec::new();
    for case in attribute_cases() {
        let given = exact_flow_sample(&case.octets).map(|flow| attributes(&flow));
        if given != case.stated {
            wrong.push(format!(
                "{}: {given:?}, stated {:?}",
                case.words, case.stated
            ));
        }
    }
    assert!(wrong.is_empty(), "{wrong:#?}");
}
