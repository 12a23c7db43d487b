'use strict';
// The units of each quantity in the order in which people want them, and their names. The key of a quantity is what the
// program prints after the number of its definition. A unit whose name has no symbol is written out.
const quantities = (() => {
    const LISTS = {
        'm': 'km kilometers, m meters, cm centimeters, mm millimeters, mi miles, ft feet, in inches, yd yards, '
            + 'nmi nautical miles, µm micrometers, nm nanometers, ft;in feet and inches, lightyear light years, '
            + 'au astronomical units, pc parsecs',
        'm^2': 'm^2 square meters, km^2 square kilometers, cm^2 square centimeters, ha hectares, acre acres, '
            + 'ft^2 square feet, in^2 square inches, mi^2 square miles, yd^2 square yards, mm^2 square millimeters, '
            + 'L/100km liters for 100 km',
        'm^3': 'L liters, mL milliliters, m^3 cubic meters, cup cups, gallon gallons, floz fluid ounces, tbsp tablespoons, '
            + 'tsp teaspoons, pint pints, quart quarts, cm^3 cubic centimeters, ft^3 cubic feet, in^3 cubic inches, '
            + 'imperial_gallon imperial gallons, barrel barrels',
        'kg': 'kg kilograms, g grams, mg milligrams, lb pounds, oz ounces, t tonnes, stone stones, ton tons, µg micrograms, '
            + 'lb;oz pounds and ounces, carat carats, grain grains, troy_ounce troy ounces',
        's': 's seconds, min minutes, h hours, day days, week weeks, month months, year years, ms milliseconds, '
            + 'hr;min;sec hours and minutes, µs microseconds, ns nanoseconds, century centuries',
        'm / s': 'km/h kilometers per hour, mph miles per hour, m/s meters per second, knot knots, ft/s feet per second, '
            + 'km/s kilometers per second, mach mach, c speed of light',
        'm / s^2': 'm/s^2 meters per second squared, gravity standard gravity, ft/s^2 feet per second squared, Gal gals',
        'kg m / s^2': 'N newtons, kN kilonewtons, lbf pounds of force, kgf kilograms of force, dyn dynes',
        'kg / m s^2': 'bar bars, kPa kilopascals, psi pounds per square inch, Pa pascals, hPa hectopascals, atm atmospheres, '
            + 'mmHg millimeters of mercury, MPa megapascals, torr torrs, inHg inches of mercury, mbar millibars',
        'kg m^2 / s^2': 'kWh kilowatt hours, J joules, kJ kilojoules, kcal kilocalories, cal calories, btu British thermal units, '
            + 'MJ megajoules, eV electronvolts, Wh watt hours, therm therms, N m newton meters, ft lbf foot pounds',
        'kg m^2 / s^3': 'kW kilowatts, W watts, hp horsepower, MW megawatts, metric_horsepower metric horsepower, '
            + 'btu/hr British thermal units per hour, mW milliwatts',
        'K': 'degC degrees Celsius, degF degrees Fahrenheit, K kelvins',
        'scale': 'tempC degrees Celsius, tempF degrees Fahrenheit, K kelvins, tempR degrees Rankine',
        'radian': 'degree degrees, rad radians, arcmin minutes of arc, arcsec seconds of arc, turn turns, gradian gradians, '
            + 'dms degrees and minutes',
        'radian / s': 'rpm turns per minute, rad/s radians per second, degree/s degrees per second',
        'bit': 'GB gigabytes, MB megabytes, GiB gibibytes, MiB mebibytes, kB kilobytes, byte bytes, bit bits, TB terabytes, '
            + 'KiB kibibytes, TiB tebibytes, Gbit gigabits, Mbit megabits',
        'bit / s': 'Mbit/s megabits per second, MB/s megabytes per second, Gbit/s gigabits per second, GB/s gigabytes per second, '
            + 'kbit/s kilobits per second, kB/s kilobytes per second',
        '/ s': 'Hz hertz, kHz kilohertz, MHz megahertz, GHz gigahertz, Bq becquerels, 1/min per minute',
        'A': 'A amperes, mA milliamperes, µA microamperes, kA kiloamperes',
        'A s': 'Ah ampere hours, mAh milliampere hours, C coulombs',
        'kg m^2 / A s^3': 'V volts, mV millivolts, kV kilovolts, µV microvolts',
        'kg m^2 / A^2 s^3': 'ohm ohms, kohm kilohms, Mohm megohms, mohm milliohms',
        'A^2 s^4 / kg m^2': 'F farads, µF microfarads, nF nanofarads, pF picofarads',
        'kg m^2 / A^2 s^2': 'H henries, mH millihenries, µH microhenries',
        'kg / A s^2': 'T teslas, mT milliteslas, gauss gauss',
        'kg / m^3': 'kg/m^3 kilograms per cubic meter, g/cm^3 grams per cubic centimeter, g/L grams per liter, '
            + 'lb/ft^3 pounds per cubic foot, lb/gallon pounds per gallon, mg/dL milligrams per deciliter',
        'm^3 / s': 'L/min liters per minute, m^3/h cubic meters per hour, L/s liters per second, gpm gallons per minute, '
            + 'm^3/s cubic meters per second, ft^3/min cubic feet per minute',
        'kg / s': 'kg/s kilograms per second, kg/h kilograms per hour, lb/h pounds per hour, g/s grams per second',
        '/ m^2': 'mpg miles per gallon, km/L kilometers per liter, L/100km liters for 100 km',
        'kg / m s': 'cP centipoises, Pa s pascal seconds, poise poises',
        'cd radian^2 / m^2': 'lux lux, footcandle footcandles',
        'mol / m^3': 'mol/L moles per liter, mmol/L millimoles per liter, mol/m^3 moles per cubic meter',
        'm^2 / s^2': 'Sv sieverts, mSv millisieverts, µSv microsieverts, Gy grays, rem rems, J/kg joules per kilogram',
        '': 'percent percent, ppm parts per million, ppb parts per billion, dozen dozens',
    };
    // A unit may have a blank, so its name begins at the last word or words that its list writes out.
    const NAMES_WITH_BLANK = ['N m', 'ft lbf', 'Pa s'];

    function itemOf(text) {
        const blank = NAMES_WITH_BLANK.find(name => text.startsWith(`${name} `))?.length ?? text.indexOf(' ');
        return {name: text.slice(0, blank), meaning: text.slice(blank + 1)};
    }

    const listOf = key => (LISTS[key] ?? '').split(', ').filter(text => text).map(itemOf);
    const all = Object.keys(LISTS).flatMap(listOf).filter(({name}, i, items) =>
        !name.includes(';') && items.findIndex(item => item.name === name) === i);

    // What follows the number of a definition, such as "m / s" in "Definition: 26.8224 m / s", or undefined.
    function keyOf(from, definition) {
        const key = /(?:^|[ =])-?[\d.|]+(?:e[+-]?\d+)?(?: (.*))?$/.exec(definition.split('\n', 1)[0])?.[1] ?? '';
        if (!definition.startsWith('\tDefinition: ')) return undefined;
        return key === 'K' && /^\s*temp[A-Z]/.test(from) ? 'scale' : key;
    }

    return {keyOf, listOf, all, keys: Object.keys(LISTS)};
})();

if (typeof module !== 'undefined') module.exports = quantities;
