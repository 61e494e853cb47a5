/// A property at a temperature and a density, under its name in seuif97's `property_id.rs`.
///
/// With delta = d / 322 kg/m3, tau = 647.096 K / T, R = 0.461526 kJ/(kg K), and phi the equation of R7-97 (28): a letter after `phi_` stands for a
/// derivative. Each is worked in the Rust's order of operations. The eight of the record are R7-97's table 31; IAPWS does not define all of the 17
/// others, so they are proved against the Rust's formulas. **Four are not what their names say**: [`OE`](Property::OE), [`OIJTC`](Property::OIJTC),
/// [`OFI`](Property::OFI) and [`OFU`](Property::OFU).
///
/// Where a formula uses p, a p outside 16.529 to 100 MPa is refused with [`Refusal::State`](crate::Refusal::State): these are `OP`, `OKS`, `OZ`,
/// `OPC`, `OBETAP`, `OFU` and `OALFAP`. The others answer at every (T,d) of the ranges, also in the two-phase area, where they mean nothing.
#[derive(Clone, Copy, Debug, PartialEq, Eq, Hash)]
#[repr(i32)]
#[non_exhaustive]
pub enum Property {
    /// Pressure, MPa: d R T delta phi_delta / 1000.
    OP = 0,
    /// Specific volume, m3/kg: 1 / d.
    OV = 3,
    /// Specific enthalpy, kJ/kg: R T (tau phi_tau + delta phi_delta).
    OH = 4,
    /// Specific entropy, kJ/(kg K): R (tau phi_tau - phi).
    OS = 5,
    /// Exergy, kJ/kg: R (T (phi + delta phi_delta) + (T - 273.16 K) tau (phi_tau - phi)).
    ///
    /// **Warning:** entropy has tau phi_tau - phi where this has tau (phi_tau - phi). Over region 3 the answer lies from 315 kJ/kg below to 18 above
    /// h - 273.16 K s, that is -22 to +2.5 percent. Work that difference from the record instead.
    OE = 6,
    /// Specific internal energy, kJ/kg: R T tau phi_tau.
    OU = 7,
    /// Isobaric heat capacity, kJ/(kg K): R (-tau^2 phi_tautau + (delta (phi_delta - tau phi_deltatau))^2 / (delta (2 phi_delta + delta phi_deltadelta))).
    OCP = 8,
    /// Isochoric heat capacity, kJ/(kg K): -R tau^2 phi_tautau.
    OCV = 9,
    /// Speed of sound, m/s: the root of 1000 R T (2 delta phi_delta + delta^2 phi_deltadelta - (delta phi_delta - delta tau phi_deltatau)^2 / (tau^2 phi_tautau)).
    OW = 10,
    /// Isentropic exponent, without unit: w^2 d / p / 10^6.
    OKS = 11,
    /// Helmholtz free energy, kJ/kg: R T phi.
    OF = 12,
    /// Gibbs free energy, kJ/kg: R T (phi + delta phi_delta).
    OG = 13,
    /// Compressibility factor, without unit: 1000 p v / (R T).
    OZ = 14,
    /// Isobaric cubic expansion coefficient, 1/K: d (dv/dT) at constant p.
    OEC = 17,
    /// Isothermal compressibility, 1/MPa: -d (dv/dp) at constant T.
    OKT = 18,
    /// (dv/dT) at constant p, m3/(kg K): (phi_delta - tau phi_deltatau) / (2 phi_delta + delta phi_deltadelta) / T / d.
    ODVDT = 19,
    /// (dv/dp) at constant T, m3/(kg MPa): -1000 * 322 / d^3 / (R T (2 phi_delta + delta phi_deltadelta)).
    ODVDP = 20,
    /// (dp/dT) at constant v, MPa/K: d R delta (phi_delta - tau phi_deltatau) / 1000.
    ODPDT = 21,
    /// Isothermal throttling coefficient (dh/dp) at constant T: -cp times the Joule-Thomson coefficient / 1000.
    ///
    /// **Warning:** the Rust states kJ/(kg MPa) and the number is a thousandth of that: it is in kJ/(kg kPa).
    OIJTC = 22,
    /// Joule-Thomson coefficient (dT/dp) at constant h, K/MPa: 1000 (v / cp) (T times the expansion coefficient - 1).
    OJTC = 23,
    /// Isochoric pressure coefficient, 1/K: (1/p) (dp/dT) at constant v.
    OPC = 31,
    /// Isothermal stress coefficient, kg/m3: d / (p times the isothermal compressibility).
    OBETAP = 32,
    /// Fugacity coefficient, without unit: exp(g / (R T)).
    ///
    /// **Warning:** there is no ideal-gas reference in it. Over region 3 the answer is 1.2 to 33 times below the coefficient with the ideal gas of
    /// R7-97 (16) as reference: at (750 K, 500 kg/m3) 0.0424522 in place of 0.470117.
    OFI = 33,
    /// Fugacity, MPa: p times [`OFI`](Property::OFI).
    ///
    /// **Warning:** off by the factor of `OFI`: at (750 K, 500 kg/m3) 3.32441 MPa in place of 36.8146.
    OFU = 34,
    /// Relative pressure coefficient, 1/K: the expansion coefficient / p / the isothermal compressibility. The quantity of `OPC` by another formula,
    /// up to 1.1e-15 of it apart.
    OALFAP = 35,
}

impl Property {
    /// All 25, by rising number.
    pub const ALL: [Property; 25] = [
        Property::OP,
        Property::OV,
        Property::OH,
        Property::OS,
        Property::OE,
        Property::OU,
        Property::OCP,
        Property::OCV,
        Property::OW,
        Property::OKS,
        Property::OF,
        Property::OG,
        Property::OZ,
        Property::OEC,
        Property::OKT,
        Property::ODVDT,
        Property::ODVDP,
        Property::ODPDT,
        Property::OIJTC,
        Property::OJTC,
        Property::OPC,
        Property::OBETAP,
        Property::OFI,
        Property::OFU,
        Property::OALFAP,
    ];

    /// The number in seuif97's `property_id.rs`.
    pub fn number(self) -> i32 {
        self as i32
    }

    /// The property of a number, if it is one of the 25.
    pub fn of(number: i32) -> Option<Property> {
        Property::ALL.into_iter().find(|p| p.number() == number)
    }
}
