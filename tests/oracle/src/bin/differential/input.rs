//! An input: one call of one service.

#[derive(Clone, Copy, Debug, PartialEq, Eq)]
pub enum Service {
    Check,
    List,
    ShortForm,
    Member,
}

pub const SERVICES: [Service; 4] = [Service::Check, Service::List, Service::ShortForm, Service::Member];

impl Service {
    pub fn name(self) -> &'static str {
        match self {
            Service::Check => "check",
            Service::List => "listing",
            Service::ShortForm => "short form",
            Service::Member => "membership",
        }
    }

    /// Whether the service can answer with this number: 0 for success, else a refusal. There is no refusal 9.
    pub fn can_answer(self, number: usize) -> bool {
        let judged = match self {
            Service::Check => number <= 15,
            Service::List => number <= 8 || number == 19,
            Service::ShortForm => number <= 19,
            Service::Member => number <= 18,
        };
        judged && number != 9
    }
}

/// Whatever a service does not take is not looked at.
#[derive(Clone, Debug)]
pub struct Input<'a> {
    pub service: Service,
    pub package: &'a [u8],
    pub formula: &'a [u8],
    pub budget: u32,
    pub out_len: usize,
    /// Slices of length 0 are handed over as NULL.
    pub null: bool,
}
