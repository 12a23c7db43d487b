'use strict';
// The Definitions view: edits the files and shows what the program's --check reports of them.
const definitions = (() => {
    const CHECK_DELAY = 150;
    // `known` is the text of the shown file that the edits since the last pause began with.
    let shown = files.OWN, known = '', checkTimer = 0, isEdited = false, replaced = null;

    // ---- Files ----

    function listFiles() {
        get('file').replaceChildren(...files.names().map(name =>
            new Option(files.isOfLibrary(name) && files.isChanged(name) ? `${name} (changed)` : name, name)));
        get('file').value = shown;
        get('restore').disabled = !files.isChanged(shown);
        get('restore').textContent = files.originalOf(shown) === null ? 'Delete' : 'Restore';
    }

    // Shows the text as it is now. What the user has selected stays so, if another tab changed something else.
    function renewText() {
        const area = get('text'), {value, selectionStart, selectionEnd, scrollTop} = area;
        known = files.textOf(shown);
        if (value === known) return;
        let same = 0;
        while (same < value.length && value[same] === known[same]) same++;
        const moved = at => at <= same ? at : Math.max(same, at + known.length - value.length);
        area.value = known;
        area.setSelectionRange(moved(selectionStart), moved(selectionEnd));
        area.scrollTop = scrollTop;
    }

    // The files changed, here or in another tab.
    function renew() {
        if (isEdited) return keepEdit();
        if (!files.names().includes(shown)) shown = files.OWN;
        renewText();
        listFiles();
        if (!get('definitions').hidden) check();
    }

    function showFile(name) {
        keepEdit();
        shown = files.names().includes(name) ? name : files.OWN;
        renew();
    }

    // Replaces a whole file, which can be undone.
    function replace(name, text, message) {
        keepEdit();
        replaced = {name, before: files.textOf(name), after: text};
        get('restored-text').textContent = message;
        get('restored').hidden = false;
        files.change([[name, replaced.before, text]]);
        showFile(name);
    }

    function undoReplace() {
        get('restored').hidden = true;
        files.change([[replaced.name, replaced.after, replaced.before]]);
        showFile(replaced.name);
        get('text').focus();
    }

    function create(event) {
        event.preventDefault();
        const name = get('new-name').value.trim();
        keepEdit();
        get('naming').hidden = true;
        if (!files.names().includes(name)) files.change([[name, null, '# Definitions\n']]);
        showFile(name);
        get('text').focus();
    }

    async function openChosen() {
        const [chosen] = get('chosen-file').files;
        if (!chosen) return;
        const name = chosen.name.replace(/\s/g, '_'), text = await chosen.text();
        get('chosen-file').value = '';
        if (files.names().includes(name)) replace(name, text, `${name} now has the text of the file you opened.`);
        else {
            files.change([[name, null, text]]);
            showFile(name);
        }
    }

    function download() {
        const url = URL.createObjectURL(new Blob([files.textOf(shown)], {type: 'text/plain'}));
        element('a', {href: url, download: shown}).click();
        URL.revokeObjectURL(url);
    }

    function restore() {
        const original = files.originalOf(shown);
        replace(shown, original, original === null ? `${shown} is deleted.` : `${shown} is as it was at first.`);
    }

    function edit() {
        get('restored').hidden = true;
        clearTimeout(checkTimer);
        isEdited = true;
        checkTimer = setTimeout(keepEdit, CHECK_DELAY);
    }

    // Keeps what was typed since the last pause, before anything else uses or replaces the text.
    function keepEdit() {
        clearTimeout(checkTimer);
        if (!isEdited) return;
        isEdited = false;
        files.change([[shown, known, get('text').value]]);
    }

    // ---- The report ----

    // A part of the library is checked with the file that includes it.
    function checkedFile() {
        if (!files.isOfLibrary(shown) || shown === files.ALL) return shown;
        return get('root').value || files.ALL;
    }

    function check() {
        const name = checkedFile();
        const {status, out, err, trap} = convert.run(['-f', name, ...options.localeWords(), '--check'], [], false);
        const rows = [...new Set((err + out + (trap ?? '')).split('\n').filter(row => row))];
        const isClean = status === 0 && rows.length === 0;
        get('check-file').textContent = `of ${name}`;
        get('check-summary').textContent = isClean ? 'No faults found.' : `${rows.length} faults found.`;
        get('check').replaceChildren(...(isClean ? [element('li', {className: 'clean'}, 'No faults found.')]
            : rows.map(row => element('li', {}, linked(row)))));
    }

    // A row that names a line or a definition leads to it.
    function linked(row) {
        const [, name, number] = /^(\S+?):(\d+): /.exec(row) ?? [];
        const [, defined] = /^(\S+): /.exec(row) ?? [];
        const place = files.names().includes(name) ? {name, number: Number(number)} : defined && definitionOf(defined);
        return place ? element('button', {type: 'button', onclick: () => goTo(place)}, row) : row;
    }

    // The last line that defines a name, in the shown file or else in another.
    function definitionOf(defined) {
        const names = [shown, ...files.names().filter(name => name !== shown)];
        for (const name of names) {
            const lines = files.textOf(name).split('\n');
            const number = lines.map(line => line.split(/[\s(]/, 1)[0]).lastIndexOf(defined) + 1;
            if (number > 0) return {name, number};
        }
        return undefined;
    }

    function goTo({name, number}) {
        showFile(name);
        const text = get('text'), lines = text.value.split('\n').slice(0, number);
        const end = lines.join('\n').length;
        text.focus();
        text.setSelectionRange(end - (lines[number - 1] ?? '').length, end);
        text.scrollTop = text.scrollHeight * (number - 1) / text.value.split('\n').length - text.clientHeight / 2;
    }

    function start() {
        get('file').addEventListener('change', () => showFile(get('file').value));
        get('text').addEventListener('input', edit);
        get('text').addEventListener('blur', () => { if (isEdited) showFile(shown); });
        addEventListener('pagehide', keepEdit);
        get('new-file').addEventListener('click', () => {
            get('naming').hidden = false;
            get('new-name').value = '';
            get('new-name').focus();
        });
        get('naming').addEventListener('submit', create);
        get('cancel-name').addEventListener('click', () => {
            get('naming').hidden = true;
            get('new-file').focus();
        });
        get('open-file').addEventListener('click', () => get('chosen-file').click());
        get('chosen-file').addEventListener('change', openChosen);
        get('download').addEventListener('click', download);
        get('restore').addEventListener('click', restore);
        get('undo-restore').addEventListener('click', undoReplace);
        files.listen(renew);
    }

    return {start, open: () => showFile(shown)};
})();
