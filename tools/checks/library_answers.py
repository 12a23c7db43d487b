"""Everyday queries with their answers, which fractions compute from the definitions of the units.

A row is FROM, TO and the answer: a number, `("reading", number)` for a conversion to a function,
`("reciprocal conversion", number)`, a list of counts with their units, or the text of a refusal. Options come before
FROM.
"""

from fractions import Fraction as F

# Lengths in metres, areas and volumes in their powers, masses in kilograms.
IN = F(254, 10000)
FT, YD, MILE = 12 * IN, 36 * IN, 63360 * IN
NMI, AU, C = F(1852), F(149597870700), F(299792458)
LY = C * 31557600
PI = F("3.14159265358979323846264338327950288")
PC = 648000 * AU / PI
ACRE, HECTARE = 43560 * FT**2, F(10000)
LITRE, ML = F(1, 1000), F(1, 1000000)
GAL, IMPGAL = 231 * IN**3, F(454609, 100000) * LITRE
CUP, FLOZ, TBSP, TSP, PINT, QUART = GAL / 16, GAL / 128, GAL / 256, GAL / 768, GAL / 8, GAL / 4
IMPPINT, IMPFLOZ, BUSHEL = IMPGAL / 8, IMPGAL / 160, F(215042, 100) * IN**3
LB = F(45359237, 100000000)
OZ, STONE, TON, LONGTON, GRAIN = LB / 16, 14 * LB, 2000 * LB, 2240 * LB, LB / 7000
TROYOZ, CARAT = 480 * GRAIN, F(2, 10000)
# Seconds, newtons, pascals, joules, watts.
MINUTE, HOUR, DAY = F(60), F(3600), F(86400)
WEEK, YEAR = 7 * DAY, F(31557600)
GRAVITY = F(980665, 100000)
LBF, KGF = LB * GRAVITY, GRAVITY
PSI, ATM, BAR = LBF / IN**2, F(101325), F(100000)
TORR, MMHG = ATM / 760, F("13.5951") * GRAVITY
INHG = F("25.4") * MMHG
CAL, CALIT = F("4.184"), F("4.1868")
BTU = CALIT * 1000 * LB * F(5, 9)
KWH, WH, HP, PS = F(3600000), F(3600), 550 * FT * LBF, 75 * KGF
THERM = F("105480400")
E, K, NA = F("1.602176634e-19"), F("1.380649e-23"), F("6.02214076e23")
H, EV, R = F("6.62607015e-34"), E, F("8.31446261815324")
MPH, KNOT = MILE / HOUR, NMI / HOUR
MPG = MILE / GAL
GIB, MIB, KIB, TIB = 2**30, 2**20, 2**10, 2**40
DEGREE = PI / 180


def celsius(fahrenheit):
    return (F(fahrenheit) - 32) * 5 / 9


def fahrenheit(celsius):
    return F(celsius) * 9 / 5 + 32


def american_wire(gauge):
    """The diameter of a wire in inches by its gauge; a step is the 39th root of 92."""
    return F(0.005 * 92 ** ((36 - gauge) / 39))


ANSWERS = [
    # Length
    ("3 acres", "hectares", 3 * ACRE / HECTARE),
    ("5 ft + 11 in", "cm", (5 * FT + 11 * IN) * 100),
    ("6 ft + 2 in", "cm", (6 * FT + 2 * IN) * 100),
    ("1 mile", "km", MILE / 1000),
    ("26.2 miles", "km", F("26.2") * MILE / 1000),
    ("10 km", "miles", 10000 / MILE),
    ("1 in", "cm", IN * 100),
    ("2.54 cm", "in", 1),
    ("1|2 inch", "mm", IN / 2 * 1000),
    ("½ inch", "mm", IN / 2 * 1000),
    ("(5/8) in", "mm", F(5, 8) * IN * 1000),
    ("6 feet", "m", 6 * FT),
    ("100 yards", "m", 100 * YD),
    ("1 nautical mile", "km", NMI / 1000),
    ("1 nmi", "m", NMI),
    ("1 nautical_mile", "miles", NMI / MILE),
    ("1 furlong", "m", 660 * FT),
    ("1 chain", "m", 66 * FT),
    ("1 fathom", "m", 6 * FT),
    ("1 league", "km", 3 * MILE / 1000),
    ("1 mil", "µm", IN * 1000),
    ("1 thou", "mm", IN),
    ("5 µm", "inch", F(5, 1000000) / IN),
    ("10 Å", "nm", 1),
    ("1 marathon", "miles", 42195 / MILE),
    ("1 au", "km", AU / 1000),
    ("1 AU", "km", AU / 1000),
    ("1 lightyear", "km", LY / 1000),
    ("1 light_year", "km", LY / 1000),
    ("1 light year", "km", LY / 1000),
    ("4.2465 ly", "pc", F("4.2465") * LY / PC),
    ("1 parsec", "ly", PC / LY),
    ("1 parsec", "m", PC),
    ("1 light_second", "km", C / 1000),
    ("12 hands", "cm", 48 * IN * 100),
    ("1 smoot", "ft", F(67, 12)),
    ("1 survey_foot", "m", F(1200, 3937)),
    ("1 point", "mm", IN * 1000 / 72),
    ("12 point", "mm", IN * 1000 / 6),
    ("1 pica", "points", 12),
    ("96 px", "cm", IN * 100),
    ("300 dpi", "1/mm", 300 / (IN * 1000)),
    ("1.75 m", "ft;in", [(5, "ft"), (F("1.75") / IN - 60, "in")]),
    ("1.4 m", "ftin", [(4, "ft"), (F("1.4") / IN - 48, "in")]),
    ("1.85 m", "ft;in", [(6, "ft"), (F("1.85") / IN - 72, "in")]),
    ("awg(12)", "mm", american_wire(12) * IN * 1000),
    ("awg(16)", "mm", american_wire(16) * IN * 1000),
    ("awg(0)", "inch", american_wire(0)),
    ("awg(36)", "mm", F("0.127")),
    ("swg(16)", "mm", F("0.064") * IN * 1000),
    # Area
    ("1 hectare", "acres", HECTARE / ACRE),
    ("640 acres", "sqmi", 1),
    ("1 acre", "sqft", 43560),
    ("1 acre", "m^2", ACRE),
    ("50 sqft", "m^2", 50 * FT**2),
    ("50 square_feet", "m^2", 50 * FT**2),
    ("10 square(feet)", "m^2", 10 * FT**2),
    ("1 km^2", "acres", 1000000 / ACRE),
    ("1 sqmi", "km^2", MILE**2 / 1000000),
    ("1 section", "acres", 640),
    ("1 barn", "fm^2", 100),
    ("120 yd * 53.3 yd", "acres", F("120") * F("53.3") * YD**2 / ACRE),
    ("A4_paper", "sqin", F("0.21") * F("0.297") / IN**2),
    # Volume
    ("1 cup", "ml", CUP / ML),
    ("1 us_cup", "ml", CUP / ML),
    ("1 imperial_pint", "ml", IMPPINT / ML),
    ("1 pint", "ml", PINT / ML),
    ("-l", "en_GB", "1 pint", "ml", IMPPINT / ML),
    ("1 gallon", "litres", GAL / LITRE),
    ("-l", "en_GB", "1 gallon", "litres", IMPGAL / LITRE),
    ("-l", "de_DE", "1 gallon", "litres", GAL / LITRE),
    ("1 imperial_gallon", "l", IMPGAL / LITRE),
    ("1 us_gallon", "imperial_gallon", GAL / IMPGAL),
    ("12 floz", "ml", 12 * FLOZ / ML),
    ("1 fluid_ounce", "ml", FLOZ / ML),
    ("1 tbsp", "ml", TBSP / ML),
    ("1 tsp", "ml", TSP / ML),
    ("3 tsp", "tbsp", 1),
    ("1 cup", "tbsp", 16),
    ("2 cups", "floz", 16),
    ("1 quart", "litre", QUART / LITRE),
    ("1 liter", "quarts", LITRE / QUART),
    ("330 ml", "floz", 330 * ML / FLOZ),
    ("1 barrel", "litres", 42 * GAL / LITRE),
    ("1 bbl", "gallons", 42),
    ("80 barrels/day", "m^3/day", 80 * 42 * GAL),
    ("1 bushel", "litres", BUSHEL / LITRE),
    ("1 cord", "m^3", 128 * FT**3),
    ("1 acre foot", "m^3", ACRE * FT),
    ("1 acre_foot", "gallons", ACRE * FT / GAL),
    ("1 cuft", "l", FT**3 / LITRE),
    ("1 cubic_foot", "gallons", FT**3 / GAL),
    ("1 l", "cuin", LITRE / IN**3),
    ("3 cubic(yards)", "l", 3 * YD**3 / LITRE),
    ("1 m^3", "gallons", 1 / GAL),
    ("350 cuin", "cc", 350 * IN**3 / ML),
    ("1000 ml", "us_cup;us_tbsp;us_tsp", [
        (4, "us_cup"), (3, "us_tbsp"), ((1000 * ML - 4 * CUP - 3 * TBSP) / TSP, "us_tsp")]),
    ("1 imperial_fluid_ounce", "ml", IMPFLOZ / ML),
    ("-l", "en_GB", "1 floz", "ml", IMPFLOZ / ML),
    ("1 metric_cup", "ml", 250),
    # Mass
    ("1 oz", "g", OZ * 1000),
    ("1 lb", "kg", LB),
    ("180 lb", "kg", 180 * LB),
    ("75 kg", "lb", 75 / LB),
    ("1 stone", "kg", STONE),
    ("10 stone", "kg", 10 * STONE),
    ("11 stone + 4 lb", "kg", 11 * STONE + 4 * LB),
    ("180 lb", "stlb", [(12, "stone"), (12, "lb")]),
    ("80 kg", "stone;lb", [(12, "stone"), (80 / LB - 168, "lb")]),
    ("1 troyounce", "g", TROYOZ * 1000),
    ("1 ozt", "g", TROYOZ * 1000),
    ("1 troy_ounce", "oz", TROYOZ / OZ),
    ("1 ton", "kg", TON),
    ("-l", "en_GB", "1 ton", "kg", LONGTON),
    ("1 tonne", "lb", 1000 / LB),
    ("1 long_ton", "kg", LONGTON),
    ("1 short_ton", "tonnes", TON / 1000),
    ("1 carat", "mg", 200),
    ("5 grains", "mg", 5 * GRAIN * 1000000),
    ("1 pennyweight", "g", 24 * GRAIN * 1000),
    ("500 g", "lb", F(1, 2) / LB),
    ("8 oz", "g", 8 * OZ * 1000),
    ("5 lb", "lb;oz", [(5, "lb"), (0, "oz")]),
    ("2.3 kg", "lb;oz", [(5, "lb"), ((F("2.3") - 5 * LB) / OZ, "oz")]),
    ("1 slug", "kg", LBF / FT),
    ("100 mcg", "mg", F(1, 10)),
    ("1 cwt", "lb", 100),
    ("-l", "en_GB", "1 cwt", "lb", 112),
    ("1 lb/ft^3", "kg/m^3", LB / FT**3),
    ("1 g/cm^3", "lb/gallon", 1000 * GAL / LB),
    # Time
    ("1 week", "hours", 168),
    ("1 day", "s", 86400),
    ("1 year", "days", F("365.25")),
    ("1 century", "s", 100 * YEAR),
    ("1 fortnight", "days", 14),
    ("90 minutes", "hours", F(3, 2)),
    ("1.5 hours", "hms", [(1, "hr"), (30, "min"), (0, "sec")]),
    ("100000 s", "day;hr;min;sec", [(1, "day"), (3, "hr"), (46, "min"), (40, "sec")]),
    ("1e9 s", "years", F(10) ** 9 / YEAR),
    ("1 µs", "s", F(1, 1000000)),
    ("100 µs", "ms", F(1, 10)),
    ("1 us", "ns", 1000),
    ("5 das", "s", 50),
    ("3 months", "days", F("365.25") / 4),
    ("1 sidereal_day", "hours", F("86164.0905") / 3600),
    # Speed, acceleration and consumption
    ("60 mph", "km/h", 60 * MPH * F(36, 10)),
    ("100 km/h", "m/s", F(1000, 36)),
    ("100 km/h", "mph", 100 * 1000 / MILE),
    ("100 kph", "mph", 100 * 1000 / MILE),
    ("120 knots", "km/h", F("222.24")),
    ("1 knot", "m/s", KNOT),
    ("1 mph", "knots", MPH / KNOT),
    ("100 mi/h", "ft/s", 100 * F(5280, 3600)),
    ("1 furlong/fortnight", "mm/s", 660 * FT / (14 * DAY) * 1000),
    ("c", "m/s", C),
    ("c", "mph", C / MPH),
    ("1 standard_gravity", "ft/s^2", GRAVITY / FT),
    ("9.81 m/s^2", "gravity", F("9.81") / GRAVITY),
    ("8 l / 100 km", "mpg", ("reciprocal conversion", 1 / (8 * LITRE / 100000) / MPG)),
    ("35 mpg", "km/l", 35 * MPG * LITRE / 1000),
    ("30 mpg", "l_per_100km", ("reading", 100000 / (30 * MPG * LITRE))),
    ("l_per_100km(7)", "mpg", 100000 / (7 * LITRE) / MPG),
    ("l_100km(8)", "mpg", 100000 / (8 * LITRE) / MPG),
    ("1 ips", "mm/s", F("25.4")),
    # Force, torque and pressure
    ("1 lbf", "N", LBF),
    ("10 kgf", "lbf", 10 * KGF / LBF),
    ("10 kg force", "N", 10 * KGF),
    ("1 dyne", "N", F(1, 100000)),
    ("1 kip", "kN", LBF),
    ("1 poundal", "N", LB * FT),
    ("100 ft lbf", "N m", 100 * FT * LBF),
    ("80 N m", "ft lbf", 80 / (FT * LBF)),
    ("32 psi", "bar", 32 * PSI / BAR),
    ("1 atm", "psi", ATM / PSI),
    ("15 psi", "kPa", 15 * PSI / 1000),
    ("5 bar", "psi", 5 * BAR / PSI),
    ("psig(32)", "bar", (ATM + 32 * PSI) / BAR),
    ("29.92 inHg", "hPa", F("29.92") * INHG / 100),
    ("760 mmHg", "atm", 760 * MMHG / ATM),
    ("760 torr", "atm", 1),
    ("120 mmHg", "kPa", 120 * MMHG / 1000),
    ("1013.25 hPa", "mmHg", ATM / MMHG),
    ("3 GPa", "ksi", 3 * F(10) ** 9 / (1000 * PSI)),
    ("10 mH2O", "bar", 10 * 1000 * GRAVITY / BAR),
    ("1 cP", "mPa s", 1),
    ("1 cSt", "mm^2/s", 1),
    # Energy, power and heat
    ("1 kWh", "MJ", F("3.6")),
    ("1 kWh", "BTU", KWH / BTU),
    ("12000 BTU/hour", "kW", 12000 * BTU / HOUR / 1000),
    ("1 BTU", "J", BTU),
    ("2000 kcal", "kJ", 2000 * CAL),
    ("2000 Calories", "kJ", 2000 * CAL),
    ("2000 kcal/day", "W", 2000 * 1000 * CAL / DAY),
    ("1 cal", "J", CAL),
    ("1 therm", "kWh", THERM / KWH),
    ("1 hp", "W", HP),
    ("150 hp", "kW", 150 * HP / 1000),
    ("1 PS", "W", PS),
    ("100 kW", "hp", 100000 / HP),
    ("1 eV", "J", EV),
    ("13.6 eV", "aJ", F("13.6") * EV * F(10) ** 18),
    ("1 erg", "J", F(1, 10**7)),
    ("1 quad", "J", F(10) ** 15 * BTU),
    ("1 toe", "MWh", F(10) ** 10 * CALIT / (1000 * KWH)),
    ("1 ton_tnt", "J", F(10) ** 9 * CAL),
    ("1 refrigeration_ton", "kW", 12000 * BTU / HOUR / 1000),
    ("3 kW * 24 hours", "kWh", 72),
    ("1 W/m^2 K", "BTU/hour ft^2 degF", HOUR * FT**2 * F(5, 9) / BTU),
    ("1 R_value", "m^2 K/W", FT**2 * HOUR * F(5, 9) / BTU),
    ("1 clo", "m^2 K/W", F("0.155")),
    # Temperature
    ("tempF(350)", "tempC", ("reading", celsius(350))),
    ("tempF(98.6)", "tempC", ("reading", 37)),
    ("°F(350)", "°C", ("reading", celsius(350))),
    ("tempC(-40)", "tempF", ("reading", -40)),
    ("tempC(100)", "K", F("373.15")),
    ("tempC(20)", "tempF", ("reading", fahrenheit(20))),
    ("tempF(0)", "K", celsius(0) + F("273.15")),
    ("300 K", "tempC", ("reading", F("26.85"))),
    ("300 K", "tempF", ("reading", fahrenheit("26.85"))),
    ("tempF(-459.67)", "K", 0),
    ("tempF(-460)", "K", "not in domain: tempF"),
    ("98.6 degF", "degC", F("98.6") * 5 / 9),
    ("20 degC", "degF", 36),
    ("gas_mark(4)", "tempF", ("reading", 350)),
    # Electricity and magnetism
    ("12 V * 5 A", "W", 60),
    ("60 W / (120 V)", "A", F(1, 2)),
    ("5000 mAh * 3.7 V", "Wh", F("18.5")),
    ("1 Ah", "C", 3600),
    ("1 uF", "nF", 1000),
    ("1/(2 pi * 50 Hz * 10 uF)", "ohm", 1 / (2 * PI * 50 * F(10) ** -5)),
    ("1 / (2 pi sqrt(1 mH * 100 nF))", "kHz", 1 / (2 * PI * F(1, 10**5)) / 1000),
    ("1 gauss", "tesla", F(1, 10000)),
    ("50 kGs", "T", 5),
    ("1 oersted", "A/m", 1000 / (4 * PI)),
    ("1 debye", "C m", F(10) ** -21 / C),
    ("4.7 kΩ", "ohm", 4700),
    ("1 / (1|10 ohm + 1|22 ohm)", "S", 1 / (F(1, 10) + F(1, 22))),
    # Light and radiation
    ("1 footcandle", "lx", 1 / FT**2),
    ("1 footlambert", "cd/m^2", 1 / (PI * FT**2)),
    ("1 curie", "Bq", F("3.7e10")),
    ("1 curie", "GBq", 37),
    ("100 mrem", "mSv", 1),
    ("1 roentgen", "C/kg", F("2.58e-4")),
    ("1 Sv", "rem", 100),
    # Frequency and angle
    ("440 Hz * rev", "rpm", 26400),
    ("3600 rpm / rev", "Hz", 60),
    ("3600 rpm", "Hz", "conformability error\n\t376.99112 radian / s\n\t1 / s"),
    ("3000 rpm", "rad/s", 100 * PI),
    ("1 rpm", "rev/min", 1),
    ("10 rps", "rpm", 600),
    ("100 N m * 3000 rpm", "kW", "conformability error\n\t31415.927 kg m^2 radian / s^3\n\t1000 kg m^2 / s^3"),
    ("100 N m * 3000 rpm / rad", "kW", 10 * PI),
    ("(3000 rpm / rad)^2 * 10 cm", "gravity", (100 * PI) ** 2 / 10 / GRAVITY),
    ("1 rev", "degrees", 360),
    ("90 degrees", "rad", PI / 2),
    ("1 arcsec", "µrad", PI / 648000 * 1000000),
    ("1 rad", "degrees", 180 / PI),
    ("45.5 deg", "dms", [(45, "deg"), (30, "arcmin"), (0, "arcsec")]),
    ("33.333 rev/minute", "rad/s", F("33.333") * 2 * PI / 60),
    ("1 square_degree", "sr", DEGREE**2),
    ("100 gon", "degrees", 90),
    # Information
    ("2 GiB", "GB", F(2 * GIB, 10**9)),
    ("1 GiB", "MB", F(GIB, 10**6)),
    ("1 TB", "TiB", F(10**12, TIB)),
    ("100 Mbit/s", "MiB/s", F(10**8, 8 * MIB)),
    ("100 Mb/s", "MB/s", F("12.5")),
    ("100 Mbps", "MB/s", F("12.5")),
    ("1 Gbit/s", "GB/hour", 450),
    ("1 byte", "bits", 8),
    ("4 GB / (50 Mbit/s)", "minutes", F(4 * 8 * 10**9, 50 * 10**6 * 60)),
    ("700 MiB", "MB", F(700 * MIB, 10**6)),
    ("64 KiB", "bytes", 64 * KIB),
    # Numbers
    ("1 dozen", "1", 12),
    ("1 gross", "dozen", 12),
    ("300", "score", 15),
    ("25 crore", "million", 250),
    ("1 ppm", "percent", F(1, 10000)),
    ("40 hours/week", "percent", F(4000, 168)),
    ("pi", "1", PI),
    ("3 million / dozen", "1", 250000),
    # Chemistry and physics
    ("avogadro", "1/mol", NA),
    ("R", "J/mol K", R),
    ("k_B * 300 K", "eV", K * 300 / E),
    ("h_over_e", "V s", H / E),
    ("hc_over_e / (500 nm)", "V", H * C / E / F("5e-7")),
    ("photon(500 nm)", "eV", H * C / E / F("5e-7")),
    ("18 g / molar_mass_water", "mol", 18 / (2 * F("1.0080") + F("15.999"))),
    ("5 mM", "mol/l", F(5, 1000)),
    ("1 u", "kg", F("1.66053906892e-27")),
    ("1 Jy", "W/m^2 Hz", F("1e-26")),
    # Textile, cooking, gauges
    ("70 denier", "tex", F(70, 9)),
    ("1 stick_of_butter", "g", LB * 250),
    ("1 gallon/minute", "l/s", GAL / 60 / LITRE),
    ("30 gpm", "l/min", 30 * GAL / LITRE),
    ("1 cfm", "l/s", FT**3 / 60 / LITRE),
    # Refusals
    ("3 ft", "kg", "conformability error\n\t0.9144 m\n\t1 kg"),
    ("sqrt(2) m", "cm", "no exact root"),
    ("1 USD", "EUR", "unknown unit: USD"),
    ("2 m + 3 s", "m", "sum of unlike units: 2 m and 3 s"),
    ("tempF", "K", "argument needed: tempF"),
    ("1 GHz", "bit", "conformability error\n\t1e+09 / s\n\t1 bit"),
]
