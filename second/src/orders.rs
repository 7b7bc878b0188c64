//! The controller's way through an order list: which symbol comes next, and
//! what a symbol's end writes into the result area.

use crate::form::{self, Head};
use crate::symbol::Symbol;

/// What the controller has to do next.
#[derive(Clone, Copy, Debug, PartialEq, Eq)]
pub enum Next {
    /// A transaction begins: its wait in ticks, then its first START.
    Wait(u16),
    Symbol(Symbol),
    ListEnd,
}

/// Where in the transaction the symbol under way stands.
#[derive(Clone, Copy, Debug, PartialEq, Eq)]
enum Place {
    Start,
    /// One of the eight bits of a byte, 0 the highest.
    Bit(u8),
    /// The ninth symbol.
    Ninth,
    Stop,
}

/// The cursor: list and result area are walked together.
#[derive(Clone, Copy, Debug)]
pub struct Orders<'a> {
    list: &'a [u8],
    /// Place in the list of the next unread message or transaction.
    at: usize,
    /// Place in the result area of the next message or transaction.
    slot: usize,
    /// The running transaction's outcome.
    outcome: usize,
    /// Messages of the running transaction not yet begun.
    messages_left: u8,
    head: Head,
    /// Where the running message's data stands in the list.
    data: usize,
    /// The running message's flag in the result area; its count is one on.
    flag: usize,
    /// Byte of the message: 0 is the address, n the n-th data byte.
    byte: usize,
    place: Place,
    /// The bits received of the byte under way.
    received: u8,
}

impl<'a> Orders<'a> {
    /// At the start of a right list, in front of its first transaction.
    pub fn new(list: &'a [u8]) -> Orders<'a> {
        Orders {
            list,
            at: 0,
            slot: 0,
            outcome: 0,
            messages_left: 0,
            head: Head { address: 0, kind: 0, length: 0 },
            data: 0,
            flag: 0,
            byte: 0,
            place: Place::Stop,
            received: 0,
        }
    }

    /// "after its last message the next transaction begins"
    pub fn next_transaction(&mut self) -> Next {
        let Some((count, wait)) = form::transaction_at(self.list, self.at) else {
            return Next::ListEnd;
        };
        self.at += 3;
        self.outcome = self.slot;
        self.slot += 1;
        self.messages_left = count;
        self.read_head();
        Next::Wait(wait)
    }

    /// Reads the next message's head and steps over it in list and area.
    fn read_head(&mut self) {
        let Some(head) = Head::at(self.list, self.at) else { return };
        self.head = head;
        self.data = self.at + 3;
        self.flag = self.slot;
        self.at += head.list_size();
        self.slot += head.result_size();
        self.messages_left -= 1;
        self.byte = 0;
        self.place = Place::Start;
    }

    /// A fault sets the transaction's outcome; its slots keep what they hold.
    pub fn fault(&self, number: u8, results: &mut [u8]) {
        results[self.outcome] = number;
    }

    /// The symbol under way has ended without a fault and `sda` was seen in
    /// its phase 3.
    pub fn ended(&mut self, sda: bool, results: &mut [u8]) -> Next {
        match self.place {
            Place::Start => self.bit(0),
            Place::Bit(n) => {
                self.received = self.received << 1 | sda as u8;
                if n < 7 {
                    self.bit(n + 1)
                } else {
                    self.ninth()
                }
            }
            Place::Ninth => self.ninth_ended(sda, results),
            Place::Stop => {
                // "Outcome 0 is set when STOP has ended without a fault."
                results[self.outcome] = 0;
                self.next_transaction()
            }
        }
    }

    /// Bit n of the byte under way, "highest bit first".
    fn bit(&mut self, n: u8) -> Next {
        self.place = Place::Bit(n);
        let byte = if self.byte == 0 {
            self.head.address_byte()
        } else if self.head.is_read() {
            return Next::Symbol(Symbol::Received);
        } else {
            self.list[self.data + self.byte - 1]
        };
        Next::Symbol(Symbol::Sent(byte & (0x80 >> n) != 0))
    }

    /// The ninth symbol: received after an address or written byte; "the
    /// controller answers 0 to each byte read but the last, which gets 1".
    fn ninth(&mut self) -> Next {
        self.place = Place::Ninth;
        if self.byte > 0 && self.head.is_read() {
            Next::Symbol(Symbol::Sent(self.byte == self.head.length))
        } else {
            Next::Symbol(Symbol::Received)
        }
    }

    /// "Flag and count change only at the end of a ninth symbol without a
    /// fault."
    fn ninth_ended(&mut self, sda: bool, results: &mut [u8]) -> Next {
        let read_byte = self.byte > 0 && self.head.is_read();
        if read_byte {
            // "a read byte is stored then", and it counts whatever the
            // controller's own answer was (reading 8).
            results[self.flag + 1 + self.byte] = self.received;
            results[self.flag + 1] += 1;
        } else if sda {
            // "After a 1 to an address or written byte, that message is over;
            // a critical one ends the transaction by STOP, a non-critical one
            // lets the next message follow." No fault (reading 9).
            return if self.head.is_critical() { self.stop() } else { self.next_message() };
        } else if self.byte == 0 {
            results[self.flag] = 1;
        } else {
            results[self.flag + 1] += 1;
        }
        if self.byte < self.head.length {
            self.byte += 1;
            self.bit(0)
        } else {
            self.next_message()
        }
    }

    /// The next message by a repeated START, or STOP after the last.
    fn next_message(&mut self) -> Next {
        if self.messages_left == 0 {
            return self.stop();
        }
        self.read_head();
        Next::Symbol(Symbol::RepeatedStart)
    }

    /// "STOP ends every transaction." Messages that are not sent are stepped
    /// over; their slots stay 0 (reading 9).
    fn stop(&mut self) -> Next {
        while self.messages_left > 0 {
            self.read_head();
        }
        self.place = Place::Stop;
        Next::Symbol(Symbol::Stop)
    }
}
