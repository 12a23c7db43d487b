'use strict';
// The options as controls, as arguments of the program, and as parts of a link.
const options = (() => {
    const KEY = 'units:options', BUILT_IN = '';
    // The definitions of a link, in a file that is not kept. The user's files have names without blanks.
    const LINK = 'the link';
    const CHECKS = ['exact', 'strict', 'round'], FIELDS = ['digits', 'locale'];
    const DEFAULTS = {exact: false, strict: false, round: false, digits: '8', locale: 'en_US', root: files.OWN};
    let linkText = null;

    const isValid = id => get(id).value !== '' && get(id).checkValidity();
    const valueOf = id => CHECKS.includes(id) ? get(id).checked : get(id).value;

    function setValue(id, value) {
        if (CHECKS.includes(id)) get(id).checked = value === true || value === 'true';
        else get(id).value = value;
        if (get(id).selectedIndex === -1 || id === 'digits' && !isValid(id)) get(id).value = DEFAULTS[id];
    }

    const values = () => Object.fromEntries(Object.keys(DEFAULTS).map(id => [id, valueOf(id)]));
    const isDefault = id => valueOf(id) === DEFAULTS[id];
    const isOfLink = () => get('root').value === LINK;

    const localeWords = () => isDefault('locale') ? [] : ['-l', get('locale').value];

    // The arguments that decide which definitions are in force.
    function definitionWords() {
        const root = get('root').value;
        return [...(root === BUILT_IN ? [] : ['-f', root]), ...localeWords()];
    }

    function outputWords() {
        const words = [];
        if (get('exact').checked) words.push('--exact');
        else if (!isDefault('digits') && isValid('digits')) words.push('-d', get('digits').value);
        if (get('strict').checked) words.push('-s');
        if (get('round').checked) words.push('-r');
        return words;
    }

    function showSummary() {
        get('options-set').textContent = [...localeWords(), ...outputWords()].join(' ');
    }

    function listRoots() {
        const before = get('root').value || files.OWN;
        const names = files.names().filter(name => !files.isOfLibrary(name));
        get('root').replaceChildren(
            ...names.map(name => new Option(name, name)), new Option('Library', files.ALL), new Option('Built-in', BUILT_IN),
            ...(linkText === null ? [] : [new Option('From the link', LINK)]));
        setValue('root', before);
    }

    // Only what the user chose is kept, not what came with a link.
    function save(id) {
        if (!isValid('digits')) get('digits').value = DEFAULTS.digits;
        if (id !== 'root' || !isOfLink()) storage.write(KEY, {...storage.read(KEY, {}), [id]: valueOf(id)});
        showSummary();
    }

    function load() {
        listRoots();
        const kept = {...DEFAULTS, ...storage.read(KEY, {})};
        for (const id of Object.keys(DEFAULTS)) setValue(id, kept[id]);
        showSummary();
    }

    // A link names each option, since the reader may have chosen another. One that it does not name has its default.
    // Returns the options whose values this page does not have.
    function takeFrom(link, definitions) {
        const given = [...CHECKS, ...FIELDS].filter(id => link.has(id));
        for (const id of [...CHECKS, ...FIELDS]) setValue(id, link.get(id) ?? DEFAULTS[id]);
        linkText = `!include ${files.ALL}\n${definitions}\n`;
        listRoots();
        get('root').value = link.get('definitions') === 'built-in' ? BUILT_IN : LINK;
        showSummary();
        return given.filter(id => String(valueOf(id)) !== link.get(id));
    }

    return {
        load, takeFrom, values, localeWords, definitionWords, outputWords, isOfLink,
        words: () => [...definitionWords(), ...outputWords()],
        isBuiltIn: () => get('root').value === BUILT_IN,
        // The files in force that are not those of the library.
        changes: () => isOfLink() ? [[LINK, linkText]] : files.changes(),
        contents: () => isOfLink() ? files.contentsWith([[LINK, linkText]]) : files.contents(),
        listen(changed) {
            files.listen(listRoots);
            for (const id of Object.keys(DEFAULTS)) get(id).addEventListener('change', () => { save(id); changed(); });
        },
        addTo(link) {
            for (const id of CHECKS) if (valueOf(id)) link.set(id, 'true');
            for (const id of FIELDS) link.set(id, valueOf(id));
            if (get('root').value === BUILT_IN) link.set('definitions', 'built-in');
        },
    };
})();
