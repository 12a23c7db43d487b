"""Checks that the constants of the library satisfy the relations that define them."""

from __future__ import annotations

from fractions import Fraction
from math import isqrt

from unit_answers import Fault

PI = Fraction(31415926535897932384626433832795028841971693993751058209749445923, 10**64)
SCALE = 10**40  # of square roots, so that they are right to forty digits

# A name for each symbol, and the unit of its number in the relations.
CONSTANTS = {
    "c": ("speed_of_light", "m/s"), "e": ("elementary_charge", "C"), "k": ("boltzmann", "J/K"),
    "N": ("avogadro", "1/mol"), "h": ("planck", "J s"), "hbar": ("hbar", "J s"), "R": ("gas_constant", "J/mol K"),
    "F": ("faraday_constant", "C/mol"), "alpha": ("fine_structure", "1"), "rydberg": ("rydberg_constant", "1/m"),
    "a0": ("bohr_radius", "m"), "hartree": ("hartree", "J"), "me": ("electron_mass", "kg"), "mp": ("proton_mass", "kg"),
    "mu0": ("vacuum_permeability", "N/A^2"), "eps0": ("vacuum_permittivity", "F/m"), "Z0": ("vacuum_impedance", "ohm"),
    "muB": ("bohr_magneton", "J/T"), "muN": ("nuclear_magneton", "J/T"), "re": ("electron_radius", "m"),
    "sigma_e": ("thomson_cross_section", "m^2"), "lambda_C": ("compton_wavelength", "m"), "u": ("dalton", "kg"),
    "sigma": ("stefan_boltzmann", "W/m^2 K^4"), "KJ": ("josephson_constant", "Hz/V"),
    "RK": ("von_klitzing_constant", "ohm"), "phi0": ("flux_quantum", "Wb"), "G0": ("conductance_quantum", "S"),
    "c1": ("first_radiation_constant", "W m^2"), "c2": ("second_radiation_constant", "m K"), "he": ("h_over_e", "V s"),
    "hk": ("h_over_k", "K s"), "2eh": ("two_e_over_h", "Hz/V"),
    "G": ("gravitational_constant", "N m^2/kg^2"), "planck_mass": ("planck_mass", "kg"), "eV": ("eV", "J"),
    "L0": ("zero_magnitude_luminosity", "W"), "f0": ("zero_magnitude_irradiance", "W/m^2"), "pc": ("parsec", "m"),
    "sidereal_day": ("sidereal_day", "s"),
}  # fmt: skip


def root(number):
    """The square root of a number, to forty significant digits even if it is small."""
    shift = 10 ** max(0, 2 * (len(str(number.denominator)) - len(str(number.numerator))))
    large = number * shift * SCALE**2
    return Fraction(isqrt(large.numerator // large.denominator), SCALE) / Fraction(isqrt(shift))


# A relation is its text, the tolerance, and both sides as functions of the numbers. The tolerance is zero if the
# relation is exact; else it is that of the rounded side or of the published digits.
RELATIONS = [
    ("R = N k", 0, lambda v: (v["R"], v["N"] * v["k"])),
    ("F = N e", 0, lambda v: (v["F"], v["N"] * v["e"])),
    ("eV = e V", 0, lambda v: (v["eV"], v["e"])),
    ("K_J = 2 e/h", 0, lambda v: (v["KJ"], 2 / v["he"])),
    ("Phi_0 = h/2e", 0, lambda v: (v["phi0"], v["he"] / 2)),
    ("R_K = h/e^2", 0, lambda v: (v["RK"], v["he"] / v["e"])),
    ("G_0 = 2 e^2/h", 0, lambda v: (v["G0"], 2 * v["e"] / v["he"])),
    ("2 e/h by h/e", 0, lambda v: (v["2eh"] * v["he"], 2)),
    ("h/k = (h/e) (e/k)", 0, lambda v: (v["hk"], v["he"] * v["e"] / v["k"])),
    ("c_2 = h c/k", 0, lambda v: (v["c2"], v["hk"] * v["c"])),
    ("h = (h/e) e", "2e-16", lambda v: (v["h"], v["he"] * v["e"])),
    ("hbar = h/2 pi", "1e-15", lambda v: (v["hbar"], v["h"] / (2 * PI))),
    ("c_1 = 2 pi h c^2", "1e-15", lambda v: (v["c1"], 2 * PI * v["h"] * v["c"] ** 2)),
    ("sigma = 2 pi^5 k^4/15 h^3 c^2", "1e-15",
     lambda v: (v["sigma"], 2 * PI**5 * v["k"] / (15 * v["hk"] ** 3 * v["c"] ** 2))),
    ("alpha = mu_0 e^2 c/2 h", "4e-10", lambda v: (v["alpha"], v["mu0"] * v["e"] * v["c"] / (2 * v["he"]))),
    ("mu_0 epsilon_0 c^2 = 1", "4e-10", lambda v: (v["mu0"] * v["eps0"] * v["c"] ** 2, 1)),
    ("Z_0 = mu_0 c", "4e-10", lambda v: (v["Z0"], v["mu0"] * v["c"])),
    ("a_0 = alpha/4 pi R", "4e-10", lambda v: (v["a0"], v["alpha"] / (4 * PI * v["rydberg"]))),
    ("E_h = 2 h c R", "1e-11", lambda v: (v["hartree"], 2 * v["h"] * v["c"] * v["rydberg"])),
    ("m_e = 2 h R/c alpha^2", "7e-10",
     lambda v: (v["me"], 2 * v["h"] * v["rydberg"] / (v["c"] * v["alpha"] ** 2))),
    ("r_e = alpha^2 a_0", "1e-9", lambda v: (v["re"], v["alpha"] ** 2 * v["a0"])),
    ("sigma_e = 8 pi r_e^2/3", "2e-9", lambda v: (v["sigma_e"], 8 * PI / 3 * v["re"] ** 2)),
    ("lambda_C = h/m_e c", "7e-10", lambda v: (v["lambda_C"], v["h"] / (v["me"] * v["c"]))),
    ("mu_B = e hbar/2 m_e", "7e-10", lambda v: (v["muB"], v["e"] * v["hbar"] / (2 * v["me"]))),
    ("mu_N = e hbar/2 m_p", "7e-10", lambda v: (v["muN"], v["e"] * v["hbar"] / (2 * v["mp"]))),
    ("m_e/u = 5.485799090441e-4", "7e-10", lambda v: (v["me"] / v["u"], Fraction("5.485799090441e-4"))),
    ("f_0 = L_0/4 pi (10 pc)^2", "3e-10", lambda v: (v["f0"], v["L0"] / (4 * PI * (10 * v["pc"]) ** 2))),
    ("the sidereal day of 1982", "1e-9",
     lambda v: (v["sidereal_day"], 86400 / (1 + Fraction("8640184.812866") / (36525 * 86400)))),
    ("m_P = sqrt(hbar c/G)", "2e-5", lambda v: (v["planck_mass"], root(v["hbar"] * v["c"] / v["G"]))),
]  # fmt: skip


def check_relations(session, results):
    """Both sides of each relation are equal within its tolerance."""
    names = [name for name, _ in CONSTANTS.values()]
    units = [unit for _, unit in CONSTANTS.values()]
    numbers = {}
    for symbol, value, unit in zip(CONSTANTS, session.values(names), session.values(units)):
        name, unit_text = CONSTANTS[symbol]
        is_known = not isinstance(value, Fault) and value.conforms(unit)
        results.check(f"relation: {name} conforms to {unit_text}", is_known, str(value))
        if is_known:
            numbers[symbol] = value.number / unit.number
    for text, tolerance, sides in RELATIONS:
        try:
            left, right = sides(numbers)
        except KeyError as missing:
            results.check(f"relation {text}", False, f"{CONSTANTS[missing.args[0]][0]} has no value")
            continue
        difference = abs(left / right - 1)
        detail = f"the sides differ by {float(difference):.2g}"
        results.check(f"relation {text}", difference <= Fraction(tolerance), detail)
