'use strict';
// Links: the part of the address after # has the question and all that its answer depends on: the options, the user's own
// definitions that it uses, the edition of the program and library, and the view.
const links = (() => {
    const NAMES = {locale: 'the locale', digits: 'digits', exact: 'fractions', strict: 'no reciprocals', round: 'rounding'};
    let edition = '', views = null;

    function hash() {
        const parts = new URLSearchParams(), [from, to] = convert.sides(), view = views.shown();
        if (from.trim()) {
            parts.set('from', from);
            if (to.trim()) parts.set('to', to);
            options.addTo(parts);
            const needed = options.isBuiltIn() ? '' : convert.ownDefinitions(files.ALL);
            if (needed === undefined) parts.set('incomplete', 'true');
            else if (needed) parts.set('own', needed);
            parts.set('edition', edition);
        }
        if (view !== 'convert') parts.set('view', view);
        return `#${parts}`;
    }

    // While a question is typed, its entry in the history of the browser changes. One that was answered keeps its entry.
    function write(isAnswered) {
        const link = hash(), isSame = link === (location.hash || '#'), wasAnswered = Boolean(history.state?.isAnswered);
        const state = {isAnswered: isAnswered || isSame && wasAnswered};
        // Browsers refuse too many changes in a short time; the next one catches up.
        try {
            if (wasAnswered && !isSame) history.pushState(state, '', link);
            else history.replaceState(state, '', link);
        } catch { /* see above */ }
    }

    const shortened = text => text.length > 120 ? `${text.slice(0, 120)}…` : text;

    // What of the link is not as the reader has chosen.
    function differences(mine, theirs, definitions) {
        const changed = Object.keys(NAMES).filter(id => mine[id] !== theirs[id])
            .map(id => theirs[id] === true ? NAMES[id] : `${NAMES[id]}: ${theirs[id] || 'no'} (yours: ${mine[id] || 'no'})`);
        if (theirs.root === '' && mine.root !== '') changed.push('the built-in definitions alone');
        if (definitions) changed.push(`definitions of its own: ${shortened(definitions.replace(/\n/g, '; '))}`);
        return changed.length > 0 ? changed.join('; ') : 'the library without your own definitions';
    }

    function show(notes, isUnlike) {
        get('link-note').hidden = notes.length === 0;
        get('link-note-text').textContent = notes.join(' ');
        get('use-mine').hidden = !isUnlike;
    }

    // Shows the answer of the link. If the reader's settings give the same, they stay.
    function take(parts) {
        const definitions = parts.get('own') ?? '', notes = [];
        const isTooLong = definitions.length > own.MOST_CARRIED;
        const mine = options.values(), myReply = convert.reply();
        const unknown = options.takeFrom(parts, isTooLong ? '' : definitions);
        const isUnlike = convert.reply() !== myReply;
        if (isUnlike) notes.push(`This link has settings that change the answer: ${
            differences(mine, options.values(), isTooLong ? '' : definitions)}.`);
        else options.load();
        if (isTooLong) notes.push('The definitions in this link are too long to be used.');
        if (parts.has('incomplete')) notes.push('The answer of the sender uses definitions that this link does not have.');
        if (unknown.length > 0) notes.push(`This page does not have what the link asks for: ${
            unknown.map(id => `${id} ${shortened(parts.get(id))}`).join(', ')}.`);
        if (parts.has('edition') && parts.get('edition') !== edition) {
            notes.push(`This link was made with another edition of the program and library (${
                shortened(parts.get('edition'))}; this page has ${edition}), so the answer may differ.`);
        }
        show(notes, isUnlike);
    }

    function follow() {
        const parts = new URLSearchParams(location.hash.slice(1));
        get('from').value = parts.get('from') ?? '';
        get('to').value = parts.get('to') ?? '';
        options.load();
        show([], false);
        if (parts.get('from')?.trim()) take(parts);
        views.show(parts.get('view'));
        try { history.replaceState({isAnswered: true}, '', hash()); } catch { /* as in `write` */ }
    }

    function start(givenEdition, givenViews) {
        [edition, views] = [givenEdition, givenViews];
        addEventListener('hashchange', follow);
        get('use-mine').addEventListener('click', () => {
            show([], false);
            options.load();
            convert.show();
            get('from').focus();
        });
        follow();
    }

    return {start, write, href: () => new URL(hash(), location.href).href};
})();
