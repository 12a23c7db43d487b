'use strict';
// Merges two texts that were made from the same one, by lines. Both orders of the two give the same text, so that two
// tabs which merge at the same time agree.
const mergeTexts = (() => {
    // The lines of `base` from `start` to before `end` are those that `text` replaces by `lines`.
    function changeOf(base, text) {
        const lines = text.split('\n'), most = Math.min(base.length, lines.length);
        let start = 0, same = 0;
        while (start < most && base[start] === lines[start]) start++;
        while (same < most - start && base[base.length - 1 - same] === lines[lines.length - 1 - same]) same++;
        return {start, end: base.length - same, lines: lines.slice(start, lines.length - same)};
    }

    const applied = (base, {start, end, lines}, from, to) =>
        [...base.slice(from, start), ...lines, ...base.slice(end, to)];

    // If both changed the same lines, all lines of both are kept.
    function union(one, other) {
        const [first, second] = one.join('\n') < other.join('\n') ? [one, other] : [other, one];
        const known = new Set(first);
        return [...first, ...second.filter(line => !known.has(line))];
    }

    return (baseText, one, other) => {
        if (one === other || other === baseText) return one;
        if (one === baseText) return other;
        const base = baseText.split('\n');
        const [first, second] = [changeOf(base, one), changeOf(base, other)]
            .sort((a, b) => a.start - b.start || a.end - b.end);
        if (first.end < second.start) {
            return [...applied(base, first, 0, second.start), ...second.lines, ...base.slice(second.end)].join('\n');
        }
        const from = first.start, to = Math.max(first.end, second.end);
        const both = union(applied(base, first, from, to), applied(base, second, from, to));
        return [...base.slice(0, from), ...both, ...base.slice(to)].join('\n');
    };
})();

if (typeof module !== 'undefined') module.exports = mergeTexts;
