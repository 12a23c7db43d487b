'use strict';
// The user's own definitions on which an answer depends, as lines that a link or a command can carry. The program decides:
// lines are enough if it gives the same reply over the library and these lines.
const own = (() => {
    const MOST_CARRIED = 4000;

    // The lines that the user has written, with those that a backslash continues.
    function linesOf([name, text]) {
        const original = new Set((files.originalOf(name) ?? '').split('\n'));
        return text.replace(/\\\n/g, ' ').split('\n')
            .filter(line => line.trim() !== '' && !/^\s*(?:#|!include\b)/.test(line) && !original.has(line));
    }

    const wordsOf = text => text.match(/[^\s\d.;,()[\]*/^|+-]+/g) ?? [];

    // The definitions of the words of a text and of each other, by their names alone: a word may have a prefix and an ending.
    // It stops when they are too long to be carried.
    function namedIn(lines, text) {
        const rest = new Map(lines.map(line => [line, wordsOf(line)])), found = new Set(), words = wordsOf(text);
        let length = 0;
        for (const word of words) {
            for (const [line, [name, ...body]] of rest) {
                if (!name || !word.includes(name.replace(/\By$/, ''))) continue;
                rest.delete(line);
                found.add(line);
                words.push(...body);
                length += line.length;
                if (length > MOST_CARRIED) return lines;
            }
        }
        return lines.filter(line => found.has(line));
    }

    // The lines that give the question this reply over a file of the library, the fewest that were found. Undefined if none
    // do, or if they are too long. `replyOver(text)` is the reply over a file with this text.
    function neededFor(changes, base, question, reply, replyOver) {
        const lines = changes.flatMap(linesOf);
        const choices = lines.length === 0 ? [() => []] : [() => [], () => namedIn(lines, question), () => lines];
        for (const choose of choices) {
            const text = choose().join('\n');
            if (text.length <= MOST_CARRIED && replyOver(`!include ${base}\n${text}\n`) === reply) return text;
        }
        return undefined;
    }

    return {neededFor, MOST_CARRIED};
})();
