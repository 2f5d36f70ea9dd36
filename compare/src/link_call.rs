//! The five calls of one connection, by their plain numbers and byte runs, which may be out of range.

/// An idle time as a call names it: by a flag, 0 for none named, and a number that counts only where the flag isn't 0.
#[derive(Clone, Copy, PartialEq, Debug)]
pub struct Naming {
    pub named: u32,
    pub idle_time: u32,
}

/// A call without record, own address and buffer.
#[rustfmt::skip]
#[derive(Clone, Debug)]
pub enum Call {
    Open { time: u64, random: u32, naming: Naming, net: Vec<u8> },
    Close { new_setup: u32, reason: u32, text: Vec<u8> },
    Send { time: u64, command: u32, net: Vec<u8> },
    Received { time: u64, random: u32, naming: Naming, telegram: Vec<u8>, net: Vec<u8> },
    Tick { time: u64 },
}

/// The values of a call: 0 or nothing where it has none.
impl Call {
    pub fn time(&self) -> u64 {
        match self {
            Call::Open { time, .. } | Call::Send { time, .. } | Call::Received { time, .. } | Call::Tick { time } => *time,
            Call::Close { .. } => 0,
        }
    }

    pub fn random(&self) -> u32 {
        match self {
            Call::Open { random, .. } | Call::Received { random, .. } => *random,
            Call::Close { .. } | Call::Send { .. } | Call::Tick { .. } => 0,
        }
    }

    pub fn naming(&self) -> Naming {
        match self {
            Call::Open { naming, .. } | Call::Received { naming, .. } => *naming,
            Call::Close { .. } | Call::Send { .. } | Call::Tick { .. } => Naming { named: 0, idle_time: 0 },
        }
    }

    pub fn command(&self) -> u32 {
        match self {
            Call::Send { command, .. } => *command,
            Call::Open { .. } | Call::Close { .. } | Call::Received { .. } | Call::Tick { .. } => 0,
        }
    }

    pub fn net(&self) -> &[u8] {
        match self {
            Call::Open { net, .. } | Call::Send { net, .. } | Call::Received { net, .. } => net,
            Call::Close { .. } | Call::Tick { .. } => &[],
        }
    }

    pub fn text(&self) -> &[u8] {
        match self {
            Call::Close { text, .. } => text,
            Call::Open { .. } | Call::Send { .. } | Call::Received { .. } | Call::Tick { .. } => &[],
        }
    }

    pub fn telegram(&self) -> &[u8] {
        match self {
            Call::Received { telegram, .. } => telegram,
            Call::Open { .. } | Call::Close { .. } | Call::Send { .. } | Call::Tick { .. } => &[],
        }
    }
}

/// The call with another value, where it has that value at all.
impl Call {
    pub fn with_time(mut self, other: u64) -> Call {
        if let Call::Open { time, .. } | Call::Send { time, .. } | Call::Received { time, .. } | Call::Tick { time } = &mut self {
            *time = other;
        }
        self
    }

    pub fn with_random(mut self, other: u32) -> Call {
        if let Call::Open { random, .. } | Call::Received { random, .. } = &mut self {
            *random = other;
        }
        self
    }

    pub fn with_naming(mut self, other: Naming) -> Call {
        if let Call::Open { naming, .. } | Call::Received { naming, .. } = &mut self {
            *naming = other;
        }
        self
    }

    pub fn with_command(mut self, other: u32) -> Call {
        if let Call::Send { command, .. } = &mut self {
            *command = other;
        }
        self
    }

    pub fn with_net(mut self, other: Vec<u8>) -> Call {
        if let Call::Open { net, .. } | Call::Send { net, .. } | Call::Received { net, .. } = &mut self {
            *net = other;
        }
        self
    }

    pub fn with_text(mut self, other: Vec<u8>) -> Call {
        if let Call::Close { text, .. } = &mut self {
            *text = other;
        }
        self
    }

    pub fn with_telegram(mut self, other: Vec<u8>) -> Call {
        if let Call::Received { telegram, .. } = &mut self {
            *telegram = other;
        }
        self
    }
}
