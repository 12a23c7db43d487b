'use strict';
// A line for a terminal that gives the shown answer wherever the program is installed, without the files of this page.
const terminal = (() => {
    // The installed command reads other texts as people mean them, but those of a session as they are.
    const PLAIN = /^-?[\d.]+ [\p{L}][\p{L}\p{N}_]*(?:[/^][\p{L}\p{N}]+)*$|^[\p{L}]{2,}$/u;
    const UNIT = /^[\p{L}][\p{L}\p{N}_]*(?:[/^][\p{L}\p{N}]+)*$/u;

    const quoted = word => /^[\w@%+=:,./-]+$/.test(word) ? word : `'${word.replaceAll("'", `'\\''`)}'`;
    const command = words => words.map(quoted).join(' ');

    // The line for a question with these definitions, or undefined. In a session a refusal has another text.
    function lineFor(from, to, definitions, isAnswered) {
        const words = [...options.localeWords(), ...options.outputWords()], operands = [from, ...(to.trim() ? [to] : [])];
        if (options.isBuiltIn()) return command(['units', ...words, '--', ...operands]);
        if (definitions === undefined || /^\s*!/m.test(definitions)) return undefined;
        const isPlain = definitions === '' && PLAIN.test(from) && (to.trim() === '' || UNIT.test(to));
        if (isPlain) return command(['qunits', ...words, '--', ...operands]);
        if (!isAnswered) return undefined;
        const lines = [...definitions.split('\n').filter(line => line).map(line => `:define ${line}`), from, to];
        return `${command(['printf', '%s\\n', ...lines])} | ${command(['qunits', '-q', ...words])}`;
    }

    return {lineFor};
})();
