//! The train of a speed question.

/// A train, as the speed question takes it: any values may be handed over, and values that are not allowed are refused.
///
/// Made by its three numbers and the names of its categories, of which it may have none or several:
///
/// ```
/// use seglink::Train;
///
/// let freight = Train::new(4000, 80, 160).freight_g();
/// assert!(freight.freight_g && !freight.freight_p && !freight.passenger);
/// ```
#[derive(Clone, Copy, Debug, PartialEq, Eq, Hash)]
#[must_use]
#[repr(C)]
pub struct Train {
    /// Length in cm, 1 to 150,000.
    pub length: u32,
    /// Cant deficiency in mm: 80, 100, 130, 150, 165, 180, 210, 225, 245, 275 or 300.
    ///
    /// If no entry of an element names it, the entries of the greatest figure below it count; V_STATIC counts if there are none.
    pub cant: u32,
    /// The train's own top speed in km/h, 1 to 600: no permitted speed is above it.
    pub maximum: u32,
    /// Whether it is freight in P position.
    pub freight_p: bool,
    /// Whether it is freight in G position.
    pub freight_g: bool,
    /// Whether it is a passenger train.
    pub passenger: bool,
}

impl Train {
    /// Makes a train without a category: its length in cm, its cant deficiency in mm, its own top speed in km/h.
    pub const fn new(length_cm: u32, cant_mm: u32, maximum_kmh: u32) -> Train {
        Train { length: length_cm, cant: cant_mm, maximum: maximum_kmh, freight_p: false, freight_g: false, passenger: false }
    }

    /// Returns the train as freight in P position.
    pub const fn freight_p(self) -> Train {
        Train { freight_p: true, ..self }
    }

    /// Returns the train as freight in G position.
    pub const fn freight_g(self) -> Train {
        Train { freight_g: true, ..self }
    }

    /// Returns the train as a passenger train.
    pub const fn passenger(self) -> Train {
        Train { passenger: true, ..self }
    }
}
