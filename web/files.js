'use strict';
// The definition files: those of the library, and over them the user's own, which this browser keeps.
const files = (() => {
    const OWN = 'my.units', ALL = 'all.units';
    const OWN_TEXT = '# Your own definitions, after those of the library.\n!include all.units\n\n';
    const listeners = [];
    let library = new Map();

    const originalOf = name => library.get(name) ?? (name === OWN ? OWN_TEXT : null);
    const textOf = name => versions.textOf(name) ?? '';
    const names = () => [...new Set([OWN, ...versions.names(), ...library.keys()])];
    const isChanged = name => versions.textOf(name) !== originalOf(name);
    const notify = () => listeners.forEach(listener => listener());

    // Each change is a name, the text of the file when the change began, and the text that it makes of that one. What
    // another tab has changed meanwhile is kept.
    function change(changes) {
        for (const [name, before, after] of changes) versions.change(name, before, after);
        notify();
    }

    function load(given) {
        library = new Map(Object.entries(given));
        versions.load(originalOf);
        addEventListener('storage', event => {
            const name = versions.nameOf(event.key);
            if (name === undefined) return;
            versions.receive(name);
            notify();
        });
        // No tab hears of changes while it is in the memory of the Back key.
        addEventListener('pageshow', event => {
            if (!event.persisted) return;
            versions.load(originalOf);
            notify();
        });
    }

    return {
        OWN, ALL, load, names, textOf, originalOf, isChanged, change,
        isOfLibrary: name => library.has(name),
        contents: () => names().map(name => [name, textOf(name)]),
        changes: () => names().filter(isChanged).map(name => [name, textOf(name)]),
        // The files as they were when these were the changes.
        contentsWith: changes => [...new Map([[OWN, OWN_TEXT], ...library, ...changes])],
        listen: listener => listeners.push(listener),
    };
})();
