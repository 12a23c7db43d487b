"""Formulas with units of the library, and their answers in the form of library_answers.py."""

from fractions import Fraction as F

from library_answers import (
    ACRE, AU, BTU, C, CAL, DAY, E, FT, GAL, GRAVITY, H, HOUR, HP, IN, K, KWH, LY, MPH, NA, OZ, PC, PI, PSI, R, TBSP,
    YEAR,
)  # fmt: skip

HBAR = H / (2 * PI)
MASS_U, MASS_E, MASS_P = F("1.66053906892e-27"), F("9.1093837139e-31"), F("1.67262192595e-27")  # CODATA 2022
GM_SUN, GM_EARTH = F("1.32712440041279419e20"), F("3.98600435507e14")  # JPL DE440
STEFAN_BOLTZMANN = 2 * PI**5 * K**4 / (15 * H**3 * C**2)

FORMULAS = [
    ("1|2 * 1000 kg * (100 km/hour)^2", "kJ", F(1, 2) * (F(100000) / 3600) ** 2),
    ("G_N earth_mass / earth_radius^2", "m/s^2", GM_EARTH / F("6371008.4") ** 2),
    ("2 G_N solar_mass / c^2", "km", 2 * GM_SUN / C**2 / 1000),
    ("stefan_boltzmann * (300 K)^4", "W/m^2", STEFAN_BOLTZMANN * 300**4),
    ("planck c / (532 nm)", "eV", H * C / F("5.32e-7") / E),
    ("planck * 3 GHz", "J", H * 3 * 10**9),
    ("planck * 1 GHz / k_B", "mK", H * 10**9 / K * 1000),
    ("hbar c", "MeV fm", HBAR * C / (E * 10**6) * 10**15),
    ("electron_mass c^2", "keV", MASS_E * C**2 / (E * 1000)),
    ("proton_mass c^2", "MeV", MASS_P * C**2 / (E * 10**6)),
    ("u c^2", "MeV", MASS_U * C**2 / (E * 10**6)),
    ("k_B * 300 K / elementary_charge", "mV", K * 300 / E * 1000),
    ("planck / (electron_mass c)", "pm", H / (MASS_E * C) * 10**12),
    ("bohr_magneton * 1 T / planck", "GHz", F("9.2740100657e-24") / H / 10**9),
    ("elementary_charge * 1 T / (2 pi electron_mass)", "GHz", E / (2 * PI * MASS_E) / 10**9),
    ("rydberg_constant c", "THz", F("10973731.568157") * C / 10**12),
    ("1 atm / (k_B * 273.15 K)", "1/cm^3", F(101325) / (K * F("273.15")) / 10**6),
    ("1 mol R * 298.15 K / (1 atm)", "l", R * F("298.15") / 101325 * 1000),
    ("55.845 g/mol / avogadro", "kg", F("0.055845") / NA),
    ("1 amu / (1 angstrom^3)", "g/cm^3", MASS_U * 10**30 / 1000),
    ("4|3 pi (6371 km)^3", "km^3", F(4, 3) * PI * 6371**3),
    ("4 pi (1 au)^2", "m^2", 4 * PI * AU**2),
    ("solar_luminosity / (4 pi au^2)", "W/m^2", F("3.828e26") / (4 * PI * AU**2)),
    ("1 kpc", "ly", 1000 * PC / LY),
    ("1/(70 km/s/Mpc)", "year", PC * 10**6 / 70000 / YEAR),
    ("sqrt(2 * 9.8 m/s^2 * 10 m)", "m/s", 14),
    ("1 l/m^2", "mm", 1),
    ("1000 kg/m^3 * gravity * 10 m", "kPa", GRAVITY * 10),
    ("1e6 cuft/day", "gpm", 10**6 * FT**3 / DAY / (GAL / 60)),
    ("(60 mph)^2 / (2 * 100 m)", "gravity", (60 * MPH) ** 2 / 200 / GRAVITY),
    ("1 W/m^2 * 1 acre * 1 year", "kWh", ACRE * YEAR / KWH),
    ("1 horsepower hour/gallon", "J/m^3", HP * HOUR / GAL),
    ("1 kWh / (1000 kg * gravity)", "m", KWH / (1000 * GRAVITY)),
    ("100 lbf / (3 in * 4 in)", "psi", F(100, 12)),
    ("1/(1/(10 ohm) + 1/(22 ohm))", "ohm", 1 / (F(1, 10) + F(1, 22))),
    ("2 pi * 50 Hz * 10 mH", "ohm", PI),
    ("(1 inch)^4 / 12", "mm^4", (IN * 1000) ** 4 / 12),
    ("pi (0.25 inch)^2 100 ft", "gallons", PI * (IN / 4) ** 2 * 100 * FT / GAL),
    ("206265 arcsec", "rad", 206265 * PI / 648000),
    ("1.22 radian * 550 nm / (10 cm)", "arcsec", F("6.71e-6") * 648000 / PI),
    ("1 barn * 1e34 / (cm^2 s)", "1/s", 10**10),
    ("1 gram c^2", "TJ", C**2 / 1000 / 10**12),
    ("1 kg c^2", "megaton_tnt", C**2 / (10**15 * CAL)),
    ("0.5 * 1.225 kg/m^3 * (30 m/s)^2 * 2.2 m^2 * 0.3", "N", F("0.5") * F("1.225") * 900 * F("0.66")),
    ("12 V * 100 Ah", "kWh", F("1.2")),
    ("1 tablespoon * 1 g/ml", "oz", TBSP * 1000 / OZ),
    ("2 TB / (600 MB/s)", "minutes", F(2 * 10**12, 600 * 10**6 * 60)),
    ("2000 sqft * 40 BTU/(hour sqft)", "kW", 2000 * 40 * BTU / HOUR / 1000),
    ("50 gpm * 100 psi", "hp", 50 * GAL / 60 * 100 * PSI / HP),
    ("1 light-year", "km", "sum of unlike units: 2.9979246e+08 m / s and 31557600 s"),
]
