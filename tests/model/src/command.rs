//! "Reading commands": the bytes of a command as they come.

/// The code of the memory load, which has data after its parameters.
pub const MEMORY_LOAD: u8 = 0x20;
/// No command has more parameter bytes.
pub const MOST_PARAMETERS: usize = 6;

/// "Parameter bytes: 0x07 1; 0x09 4; 0x0A, 0x0B, 0x0C 2; 0x0E 5; 0x17 1;
/// 0x19 6; 0x1B 6; 0x20 3 and then as many as the third says; 0x21, 0x22 2;
/// 0x80 1"; every other code has none.
const PARAMETERS: [u8; 256] = {
    let mut count = [0; 256];
    count[0x07] = 1;
    count[0x09] = 4;
    count[0x0A] = 2;
    count[0x0B] = 2;
    count[0x0C] = 2;
    count[0x0E] = 5;
    count[0x17] = 1;
    count[0x19] = 6;
    count[0x1B] = 6;
    count[0x20] = 3;
    count[0x21] = 2;
    count[0x22] = 2;
    count[0x80] = 1;
    count
};

/// The code and the parameter bytes that have come, at most six, and how many
/// data bytes are still to come. Half received, or none when no byte has come.
#[derive(Clone, Copy, Debug, Default, PartialEq, Eq)]
pub struct Command {
    bytes: [u8; 1 + MOST_PARAMETERS],
    count: u8,
    data: u8,
}

impl Command {
    pub fn code(&self) -> u8 {
        self.bytes[0]
    }

    /// Parameter `index`, from 0.
    pub fn parameter(&self, index: usize) -> u8 {
        self.bytes[1 + index]
    }

    /// The six parameter bytes of 0x19 and 0x1B.
    pub fn six(&self) -> [u8; MOST_PARAMETERS] {
        let [_, six @ ..] = self.bytes;
        six
    }

    /// Two parameter bytes from `index` on, X and Y.
    pub fn pair(&self, index: usize) -> [u8; 2] {
        [self.parameter(index), self.parameter(index + 1)]
    }

    /// Two numbers from `index` on, X and Y, each high byte first.
    pub fn words(&self, index: usize) -> [u16; 2] {
        [
            u16::from_be_bytes(self.pair(index)),
            u16::from_be_bytes(self.pair(index + 2)),
        ]
    }

    pub fn is_half_received(&self) -> bool {
        self.count > 0
    }

    /// How many parameter bytes have come.
    pub fn parameters_come(&self) -> u8 {
        self.count.saturating_sub(1)
    }

    /// The data bytes of 0x20 that are still to come.
    pub fn data_to_come(&self) -> u8 {
        self.data
    }

    /// A command of which this has come; none for code 0.
    pub fn half_received(
        code: u8,
        come: u8,
        parameters: [u8; MOST_PARAMETERS],
        data: u8,
    ) -> Command {
        if code == 0 {
            return Command::default();
        }
        let mut bytes = [code; 1 + MOST_PARAMETERS];
        bytes[1..].copy_from_slice(&parameters);
        Command {
            bytes,
            count: 1 + come,
            data,
        }
    }

    /// The most parameter bytes that may have come while a command "lacks at
    /// least one byte": its data may still lack where all of them have come.
    /// None if no command with this code can be half received; code 0 is none.
    pub fn most_parameters_come(code: u8) -> Option<u8> {
        match (code, PARAMETERS[usize::from(code)]) {
            (0, _) => Some(0),
            (_, 0) => None,
            (MEMORY_LOAD, all) => Some(all),
            (_, all) => Some(all - 1),
        }
    }

    /// Whether, with so many parameter bytes, a command waits for data.
    pub fn loads_data(code: u8, come: u8) -> bool {
        code == MEMORY_LOAD && come == PARAMETERS[usize::from(MEMORY_LOAD)]
    }

    /// Takes one more byte; true when it is the command's last.
    pub fn receive(&mut self, byte: u8) -> bool {
        if self.data > 0 {
            self.data -= 1;
            return self.data == 0;
        }
        self.bytes[usize::from(self.count)] = byte;
        self.count += 1;
        if self.count <= PARAMETERS[usize::from(self.code())] {
            return false;
        }
        if self.code() == MEMORY_LOAD {
            self.data = self.parameter(2);
        }
        self.data == 0
    }
}
