'use strict';
// The user's files in local storage, which several tabs change. Storage has no lock: a tab may write over a version that
// it has not seen yet. So a version names those that it was made from, and a tab that finds a version which was not made
// from its own merges the two.
const versions = (() => {
    const PREFIX = 'units:file:', MOST_TEXTS = 30;
    const NO_VERSION = {id: '', text: null, from: []};
    // By file: the version that this tab has, and the texts of those from which it was made, by their names.
    const current = new Map(), ancestors = new Map();
    // The text of a file that nobody has changed, or null if there is no such file.
    let originalOf = () => null;

    const newId = () => crypto.getRandomValues(new Uint32Array(2)).join('-');
    const currentOf = name => current.get(name) ?? NO_VERSION;
    const textIn = (name, text) => text ?? originalOf(name);
    const textOf = name => textIn(name, currentOf(name).text);

    // A text by itself is the form of former pages.
    function readVersion(name) {
        const kept = storage.read(PREFIX + name, null);
        if (typeof kept === 'string') return {id: `former ${kept}`, text: kept, from: []};
        return typeof kept?.id === 'string' && Array.isArray(kept.from) ? kept : NO_VERSION;
    }

    function adopt(name, version) {
        const texts = ancestors.get(name) ?? new Map([['', null]]);
        texts.set(version.id, version.text);
        // An old version is still known to be one, but without its text.
        if (texts.size > MOST_TEXTS) texts.set([...texts.keys()][texts.size - MOST_TEXTS], null);
        ancestors.set(name, texts);
        current.set(name, version);
    }

    function write(name, text, from) {
        const version = {id: newId(), text: text === originalOf(name) ? null : text, from};
        adopt(name, version);
        storage.write(PREFIX + name, version);
    }

    // A file that one tab deletes and the other edits is kept.
    function merged(name, before, one, other) {
        if (one === null || other === null) return before === other ? one : one ?? other;
        return mergeTexts(before ?? '', one, other);
    }

    // Takes what another tab has written, if this tab does not have it yet.
    function receive(name) {
        const theirs = readVersion(name), mine = currentOf(name), texts = ancestors.get(name);
        if (texts?.has(theirs.id)) return;
        const isLater = !texts || theirs.from.includes(mine.id) || theirs.text === mine.text;
        if (isLater) return adopt(name, theirs);
        const common = theirs.from.filter(id => texts.has(id)).pop();
        const before = textIn(name, texts.get(common) ?? null);
        texts.set(theirs.id, theirs.text);
        write(name, merged(name, before, textOf(name), textIn(name, theirs.text)), [mine.id, theirs.id]);
    }

    // Changes a file, whose text was `before` when the change began. Null is the text of a file that does not exist.
    function change(name, before, after) {
        receive(name);
        const now = textOf(name), text = merged(name, before, after, now);
        if (text !== now) write(name, text, [currentOf(name).id]);
    }

    function load(givenOriginalOf) {
        originalOf = givenOriginalOf;
        storage.keys().map(nameOf).filter(name => name !== undefined).forEach(receive);
    }

    const nameOf = key => key?.startsWith(PREFIX) ? key.slice(PREFIX.length) : undefined;

    return {
        load, change, receive, textOf, nameOf,
        names: () => [...current.keys()].filter(name => textOf(name) !== null),
    };
})();
