//! Routine control.
use super::payloads::through;
use super::{Decode, Encode, Error, NegativeResponseCode, Write};
use crate::{SubFunction, flat};

/// What is asked of a routine.
#[derive(Clone, Copy, Debug, PartialEq, Eq)]
#[non_exhaustive]
pub enum RoutineControlSubFunction {
    /// Start it.
    StartRoutine,
    /// Stop it.
    StopRoutine,
    /// Tell its results.
    RequestRoutineResults,
}

impl From<SubFunction> for RoutineControlSubFunction {
    fn from(sub_function: SubFunction) -> Self {
        match sub_function {
            SubFunction::Start => Self::StartRoutine,
            SubFunction::Stop => Self::StopRoutine,
            SubFunction::Results => Self::RequestRoutineResults,
        }
    }
}

impl From<RoutineControlSubFunction> for u8 {
    fn from(sub_function: RoutineControlSubFunction) -> Self {
        match sub_function {
            RoutineControlSubFunction::StartRoutine => 1,
            RoutineControlSubFunction::StopRoutine => 2,
            RoutineControlSubFunction::RequestRoutineResults => 3,
        }
    }
}

impl TryFrom<u8> for RoutineControlSubFunction {
    type Error = Error;

    fn try_from(byte: u8) -> Result<Self, Error> {
        let known = SubFunction::from_number(byte.into());
        let known = known.ok_or(Error::InvalidRoutineControlSubFunction(byte))?;
        Ok(known.into())
    }
}

/// The negative codes of routine control, in the original's order.
const NEGATIVE_CODES: [NegativeResponseCode; 7] = [
    NegativeResponseCode::SubFunctionNotSupported,
    NegativeResponseCode::IncorrectMessageLengthOrInvalidFormat,
    NegativeResponseCode::ConditionsNotCorrect,
    NegativeResponseCode::RequestSequenceError,
    NegativeResponseCode::RequestOutOfRange,
    NegativeResponseCode::SecurityAccessDenied,
    NegativeResponseCode::GeneralProgrammingFailure,
];

/// A routine request, without its service byte.
#[derive(Clone, Copy, Debug, PartialEq, Eq)]
#[non_exhaustive]
pub struct RoutineControlRequest<'d> {
    /// Whether the positive response is to be suppressed.
    pub suppress_positive_response: bool,
    /// What is asked.
    pub sub_function: RoutineControlSubFunction,
    /// Of which routine.
    pub routine_id: u16,
    /// All that follows; it may be empty.
    pub option_record: &'d [u8],
}

impl<'d> RoutineControlRequest<'d> {
    /// A request of these fields.
    #[must_use]
    pub const fn new(
        suppress_positive_response: bool,
        sub_function: RoutineControlSubFunction,
        routine_id: u16,
        option_record: &'d [u8],
    ) -> Self {
        Self {
            suppress_positive_response,
            sub_function,
            routine_id,
            option_record,
        }
    }

    /// The negative codes that the standard lists for routine control.
    #[must_use]
    pub fn allowed_nack_codes() -> &'static [NegativeResponseCode] {
        &NEGATIVE_CODES
    }
}

impl Encode for RoutineControlRequest<'_> {
    type Error = Error;

    fn encode(&self, writer: &mut impl Write) -> Result<usize, Error> {
        let (suppress, sub) = (self.suppress_positive_response, self.sub_function.into());
        through(writer, |room| {
            flat::write_routine_request(suppress, sub, self.routine_id, self.option_record, room)
        })
    }
}

impl<'a> Decode<'a> for RoutineControlRequest<'a> {
    type Error = Error;

    fn decode(buf: &'a [u8]) -> Result<(Self, &'a [u8]), Error> {
        let read = crate::read_routine_request(buf)?;
        let sub_function = read.sub_function.into();
        let request = Self::new(read.suppress, sub_function, read.identifier, read.record);
        Ok((request, &[]))
    }
}

/// A routine response, without its service byte.
#[derive(Clone, Copy, Debug, PartialEq, Eq)]
#[non_exhaustive]
pub struct RoutineControlResponse<'d> {
    /// What was asked.
    pub sub_function: RoutineControlSubFunction,
    /// Of which routine.
    pub routine_id: u16,
    /// All that follows, a byte of routine information among it where the server sends one; it may be empty.
    pub status_record: &'d [u8],
}

impl<'d> RoutineControlResponse<'d> {
    /// A response of these fields.
    #[must_use]
    pub const fn new(
        sub_function: RoutineControlSubFunction,
        routine_id: u16,
        status_record: &'d [u8],
    ) -> Self {
        Self {
            sub_function,
            routine_id,
            status_record,
        }
    }
}

impl Encode for RoutineControlResponse<'_> {
    type Error = Error;

    fn encode(&self, writer: &mut impl Write) -> Result<usize, Error> {
        let sub = self.sub_function.into();
        through(writer, |room| {
            flat::write_routine_response(sub, self.routine_id, self.status_record, room)
        })
    }
}

impl<'a> Decode<'a> for RoutineControlResponse<'a> {
    type Error = Error;

    fn decode(buf: &'a [u8]) -> Result<(Self, &'a [u8]), Error> {
        let read = crate::read_routine_response(buf)?;
        let response = Self::new(read.sub_function.into(), read.identifier, read.record);
        Ok((response, &[]))
    }
}
