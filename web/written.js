'use strict';
// Writes a reply of the program as a person would, from its text alone. What is not understood is left as it is.
const written = (() => {
    const SUPERSCRIPTS = {'-': '⁻', 0: '⁰', 1: '¹', 2: '²', 3: '³', 4: '⁴', 5: '⁵', 6: '⁶', 7: '⁷', 8: '⁸', 9: '⁹'};
    const SCALES = {tempC: '°C', tempF: '°F', tempR: '°R', tempK: 'K'};
    const NUMBER = String.raw`-?\d+(?:\.\d+)?(?:e[+-]?\d+)?(?:\|\d+)?`;
    const FACTOR = /^([\p{L}_%°µ'"$][\p{L}\p{N}_%°µ'"$]*)(?:\^(-?\d+))?$/u;

    const raised = digits => [...digits].map(digit => SUPERSCRIPTS[digit]).join('');

    // 1.5e+08 as 1.5 × 10⁸, 1e+27 as 10²⁷, 3|4 as 3/4
    function numberOf(text) {
        const [, mantissa, exponent] = /^(-?\d+(?:\.\d+)?)e([+-]?\d+)$/.exec(text) ?? [];
        if (mantissa === undefined) return text.replace('|', '/');
        const power = `10${raised(String(Number(exponent)))}`;
        return mantissa === '1' ? power : mantissa === '-1' ? `-${power}` : `${mantissa} × ${power}`;
    }

    // Names with a blank or * between them, with · instead, or undefined.
    function product(text) {
        const factors = text.split(/ ?\* ?| /).map(factor => FACTOR.exec(factor));
        if (factors.includes(null)) return undefined;
        return factors.map(([, name, exponent]) => name + (exponent ? raised(exponent) : '')).join('·');
    }

    // A unit such as "kg m^2 / A s^3". After a division a blank multiplies first, but a * does not.
    function unitOf(text) {
        const [first, ...others] = text.split(/ ?\/ ?/);
        const above = product(first), below = others.map(product);
        if (above === undefined || below.includes(undefined) || others.some(other => other.includes('*'))) return text;
        return [above, ...below.map(part => part.includes('·') ? `(${part})` : part)].join('/');
    }

    // A number with its unit, as a definition has it: "26.8224 m / s", "5 / s", "0.01"
    function amountOf(text) {
        const [, number, slash, unit] = new RegExp(`^(${NUMBER})(?: (/ )?(.+))?$`).exec(text) ?? [];
        if (number === undefined) return undefined;
        if (unit === undefined) return {number: numberOf(number), unit: ''};
        const below = slash && unitOf(`x / ${unit}`);
        return {number: numberOf(number), unit: slash ? below.slice(1) : unitOf(unit)};
    }

    const isReciprocalForm = (line, before) => line.startsWith(`${before}(1 / `);

    function definitionIn(line, from) {
        const parts = /^Definition: (.*)$/.exec(line)?.[1].split(' = ');
        const amount = parts && amountOf(parts.pop());
        return amount && {heads: [[from, ...parts, ''].join(' = ').trimEnd()], ...amount, rest: []};
    }

    // tempF(72) = tempC(22.222222)
    function scaleIn(rest, to) {
        const scale = SCALES[to], number = scale && new RegExp(`^${to}\\((${NUMBER})\\)$`).exec(rest)?.[1];
        return number && {number: numberOf(number), unit: scale};
    }

    // 32 ft + 9.7007874 in
    function sumIn(rest) {
        const amounts = rest.split(' + ').map(amountOf);
        if (amounts.length < 2 || amounts.some(amount => !amount?.unit)) return undefined;
        return {number: amounts.map(({number, unit}) => `${number} ${unit}`).join(' + '), unit: ''};
    }

    function resultIn(rest, to) {
        const number = new RegExp(`^(${NUMBER}) `).exec(rest)?.[1];
        if (number && rest === `${number} ${to}`) return {number: numberOf(number), unit: unitOf(to)};
        return scaleIn(rest, to) ?? sumIn(rest);
    }

    // The answer in the lines of a verbose reply: its heads, its number and its unit, and the lines that are left. Or
    // undefined, if the reply has another form.
    function answerIn(lines, from, to) {
        const heads = lines[0] === 'reciprocal conversion' ? [lines[0]] : [], [line, ...others] = lines.slice(heads.length);
        if (to === '') return others.length === 0 ? definitionIn(line, from) : undefined;
        const before = heads.length > 0 ? `1 / (${from}) = ` : `${from} = `;
        const result = line?.startsWith(before) && resultIn(line.slice(before.length), to);
        const rest = others.filter(other => !isReciprocalForm(other, before));
        return result ? {heads: [...heads, before.trimEnd()], ...result, rest} : undefined;
    }

    // Whether a decimal is the whole value of a fraction "n|d": then nobody needs the fraction.
    function isWhole(decimal, fraction) {
        const [, sign, digits, places = '', exponent = '0'] = /^(-?)(\d+)(?:\.(\d+))?(?:e([+-]?\d+))?$/.exec(decimal) ?? [];
        const [, top, bottom] = /^(-?\d+)\|(\d+)$/.exec(fraction) ?? [];
        if (digits === undefined || top === undefined) return false;
        const value = BigInt(sign + digits + places), power = Number(exponent) - places.length;
        const scale = 10n ** BigInt(Math.abs(power));
        return power < 0 ? value * BigInt(bottom) === BigInt(top) * scale : value * scale * BigInt(bottom) === BigInt(top);
    }

    // The unit of a quantity that is a number and a unit, or the scale of a temperature: where a swap leads.
    function unitIn(from) {
        const [, unit] = new RegExp(String.raw`^(?:${NUMBER}|\d*\.\d+) ?\*? ?([\p{L}µ°_%'"$][^+-]*)$`, 'u').exec(from) ?? [];
        const [, scale] = /^([\p{L}_]+)\(.*\)$/u.exec(from) ?? [];
        return unit ?? scale ?? (FACTOR.test(from) ? from : undefined);
    }

    // The question that turns an answer round, or undefined.
    function swapped(lines, from, to) {
        const unit = unitIn(from), before = `${from} = `;
        if (!unit || !lines[0]?.startsWith(before) || !resultIn(lines[0].slice(before.length), to)) return undefined;
        return [lines[0].slice(before.length), unit];
    }

    return {answerIn, numberOf, unitOf, isWhole, swapped};
})();

if (typeof module !== 'undefined') module.exports = written;
