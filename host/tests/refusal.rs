//! Refusals as errors.

#[test]
fn refusals_are_errors() {
    let refused = || -> Result<(), Box<dyn core::error::Error>> {
        raydulcimer::read(&[1, 0, 9])?;
        Ok(())
    };
    assert_eq!(
        refused().unwrap_err().to_string(),
        "refused 2: it ends before a field or block that its layout needs"
    );
}

#[cfg(feature = "std")]
#[test]
fn refusals_are_errors_of_input_and_output() {
    use raydulcimer::Refusal;
    use std::io::{Error, ErrorKind};

    let kinds = [
        (Refusal::TooLong, ErrorKind::InvalidData),
        (Refusal::NotForTag, ErrorKind::InvalidData),
        (Refusal::BufferTooShort, ErrorKind::InvalidInput),
        (Refusal::NotValid, ErrorKind::InvalidInput),
    ];
    for (refusal, kind) in kinds {
        let error = Error::from(refusal);
        assert_eq!((error.kind(), error.to_string()), (kind, refusal.to_string()));
        assert_eq!(error.downcast::<Refusal>().unwrap(), refusal);
    }
}
