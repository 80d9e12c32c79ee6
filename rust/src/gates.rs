// SPDX-License-Identifier: MIT OR Apache-2.0

use std::error::Error;
use std::fmt;

use crate::fault::Fault;
use crate::Place;

/// The operation of a [`Gate`].
#[repr(u32)]
#[derive(Clone, Copy, Debug, PartialEq, Eq, Hash)]
pub enum Operation {
    /// The exclusive or of two wires.
    Xor = 0,
    /// The conjunction of two wires.
    And = 1,
    /// The negation of a wire.
    Inv = 2,
    /// A constant.
    Eq = 3,
    /// A copy of a wire.
    Eqw = 4,
}

/// A gate of [`Circuit::from_gates`](crate::Circuit::from_gates).
#[repr(C)]
#[derive(Clone, Copy, Debug, PartialEq, Eq, Hash)]
pub struct Gate {
    /// The operation.
    pub operation: Operation,
    /// The wire that the gate reads first, and for [`Operation::Eq`] the constant, 0 or 1.
    pub first: u32,
    /// The wire that [`Operation::Xor`] and [`Operation::And`] read second. The others ignore it.
    pub second: u32,
    /// The wire that the gate sets.
    pub set: u32,
}

impl Gate {
    /// The gate that sets a wire to the exclusive or of two others.
    #[must_use]
    pub const fn xor(first: u32, second: u32, set: u32) -> Self {
        Self::of(Operation::Xor, first, second, set)
    }

    /// The gate that sets a wire to the conjunction of two others.
    #[must_use]
    pub const fn and(first: u32, second: u32, set: u32) -> Self {
        Self::of(Operation::And, first, second, set)
    }

    /// The gate that sets a wire to the negation of another.
    #[must_use]
    pub const fn inv(first: u32, set: u32) -> Self {
        Self::of(Operation::Inv, first, 0, set)
    }

    /// The gate that sets a wire to a constant.
    #[must_use]
    pub const fn constant(bit: bool, set: u32) -> Self {
        Self::of(Operation::Eq, bit as u32, 0, set)
    }

    /// The gate that sets a wire to a copy of another.
    #[must_use]
    pub const fn copy(first: u32, set: u32) -> Self {
        Self::of(Operation::Eqw, first, 0, set)
    }

    const fn of(operation: Operation, first: u32, second: u32, set: u32) -> Self {
        Self {
            operation,
            first,
            second,
            set,
        }
    }
}

/// Why gates are no circuit.
#[derive(Clone, Copy, Debug, PartialEq, Eq)]
#[non_exhaustive]
pub struct GateFault {
    /// The fault that reading the text of these gates returns.
    pub fault: Fault,
    /// The gate at fault, counted from 0.
    pub gate: Option<usize>,
    /// The wire of [`Fault::NO_SUCH_WIRE`], [`Fault::UNSET`], [`Fault::SET_TWICE`] and
    /// [`Fault::OUTPUT_UNSET`].
    pub wire: Option<usize>,
}

impl GateFault {
    /// A fault, and where it is if that is known.
    pub(crate) fn of(fault: Fault, place: Option<Place>) -> Self {
        let place = place.filter(|it| it.fault == fault);
        Self {
            fault,
            gate: place.and_then(|it| it.gate),
            wire: place.and_then(|it| it.wire),
        }
    }
}

impl From<Fault> for GateFault {
    fn from(fault: Fault) -> Self {
        Self::of(fault, None)
    }
}

impl From<GateFault> for Fault {
    fn from(it: GateFault) -> Self {
        it.fault
    }
}

impl fmt::Display for GateFault {
    fn fmt(&self, f: &mut fmt::Formatter<'_>) -> fmt::Result {
        self.fault.fmt(f)?;
        if let Some(gate) = self.gate {
            write!(f, ", gate {gate}")?;
        }
        if let Some(wire) = self.wire {
            write!(f, ", wire {wire}")?;
        }
        Ok(())
    }
}

impl Error for GateFault {}
