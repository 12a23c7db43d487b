'use strict';
// The Convert view: a quantity, the unit wanted, and the reply of the program.
const convert = (() => {
    const EXAMPLES = [['60 mph', 'km/h'], ['10 meters', 'feet'], ['1.4 m', 'ft;in'], ['tempF(72)', 'tempC'], ['2 cups', 'mL'],
        ['1 lightyear', 'km'], ['1 acre', 'm^2'], ['5 gallons', 'miles']];
    const DETAILS_DELAY = 120, ANNOUNCEMENT_DELAY = 700, MOST_LISTED = 400, MOST_CACHED = 200, LONGEST_FRACTION = 12;
    const BLANK = {status: 0, out: '', err: ''};
    // The file over which the page tries definitions. The user's files have names without blanks.
    const TRIED = 'tried definitions';
    let module = null, detailsTimer = 0, announcementTimer = 0, settled = () => {}, isAsPrinted = false;

    // A run is a function of its arguments, its input and the files, so its result can be reused.
    const cache = new Map();
    function run(words, input = [], isOfLink = options.isOfLink()) {
        const key = JSON.stringify([words, input, isOfLink && options.changes()]);
        const contents = isOfLink ? options.contents : files.contents;
        if (cache.size >= MOST_CACHED) cache.clear();
        if (!cache.has(key)) cache.set(key, program.run(module, {words, input, files: contents()}));
        return cache.get(key);
    }

    const operands = (from, to) => ['--', from, ...(to.trim() ? [to] : [])];
    const convertWith = (words, from, to) => run([...words, ...operands(from, to)]);
    const sides = () => [get('from').value, get('to').value];
    const textOf = ({trap, out, err}) => trap ?? (out || err);
    const linesOf = result => textOf(result).trimEnd().split('\n').map(text => text.trim());
    const verbose = (from, to) => convertWith([...options.words(), '-v'], from, to);
    const reply = () => textOf(verbose(...sides()));

    // The user's own definitions on which the shown answer depends, over a file of the library, with those of `others`.
    function ownDefinitions(base, others = []) {
        const [from, to] = sides(), changes = [...options.changes(), ...others];
        const words = ['-f', TRIED, ...options.localeWords(), ...options.outputWords(), '-v', ...operands(from, to)];
        if (changes.length === 0) return '';
        return own.neededFor(changes, base, `${from} ${to}`, reply(), text =>
            textOf(program.run(module, {words, files: files.contentsWith([[TRIED, text]])})));
    }

    // ---- The answer ----

    const line = (className, ...children) => element('p', {className}, ...children);
    const isolated = (className, text) => element('bdi', {className}, text);

    function showLines(className, lines) {
        get('answer').className = className;
        get('answer').replaceChildren(line('large', lines[0]), ...lines.slice(1).map(text => line('reply', text)));
    }

    // The answer as a person writes it, or as the program prints it, if it is of another form.
    function showAnswer(from, to) {
        const result = verbose(from, to), lines = linesOf(result);
        const answer = isAsPrinted || result.status !== 0 ? undefined : written.answerIn(lines, from.trim(), to.trim());
        if (result.status !== 0) showLines('refused pending', lines);
        else if (!answer) showLines('printed', lines);
        else {
            const {heads, number, unit, rest} = answer, blank = unit && !unit.startsWith('/') ? ' ' : '';
            get('answer').className = '';
            get('answer').replaceChildren(...heads.map(text => line('reply', text)),
                line('large', isolated('', number), blank, isolated('unit', unit)), ...rest.map(text => line('reply', text)));
        }
        return result.status === 0;
    }

    // When typing pauses, a screen reader reads the answer, and a refusal turns red: a name that is half typed is none.
    function announce(isAnswered) {
        get('answer').classList.remove('pending');
        if (get('announcement').textContent !== get('answer').innerText) {
            get('announcement').textContent = get('answer').innerText;
        }
        if (isAnswered) asked.add(...sides().map(text => text.trim()), quantityOf());
        settled(isAnswered);
    }

    function show() {
        const [from, to] = sides(), isBlank = !from.trim();
        const isAnswered = !isBlank && showAnswer(from, to);
        if (isBlank) {
            get('answer').className = 'empty';
            get('answer').replaceChildren(line('large', 'Enter a quantity and the unit you want.'));
        }
        get('conforming').hidden = get('printed').hidden = get('answer-actions').hidden = isBlank;
        clearTimeout(detailsTimer);
        clearTimeout(announcementTimer);
        detailsTimer = setTimeout(() => showDetails(from, to, isAnswered), DETAILS_DELAY);
        announcementTimer = setTimeout(() => announce(isAnswered), ANNOUNCEMENT_DELAY);
    }

    // What a copy has: the answer alone, or all of the reply if it is shown as the program prints it.
    function copied() {
        const isWritten = get('answer').className === '';
        return isWritten ? get('answer').querySelector('.large').textContent : textOf(verbose(...sides())).trimEnd();
    }

    // ---- The details, which follow when nothing is typed for a moment ----

    // What a side is by itself, or its fault if the conversion was refused.
    function describe(id, text, isAnswered) {
        const isBlank = text.trim() === '';
        const {status, out, err} = isBlank ? BLANK : convertWith(options.definitionWords(), text, '');
        const isFault = status !== 0 && !isAnswered;
        const meaning = (out || err).split('\n', 1)[0].trim().replace(/^Definition: /, '= ');
        get(`${id}-meaning`).textContent = status === 0 || isFault ? meaning : '';
        get(`${id}-meaning`).classList.toggle('fault', isFault);
        get(id).setAttribute('aria-invalid', isFault);
    }

    // The same answer as a fraction, if that is short and the decimal is not the whole of it.
    function addFraction(from, to) {
        if (get('exact').checked || isAsPrinted || !to.trim() || get('answer').className !== '') return;
        const {status, out} = convertWith([...options.words(), '--exact', '-1'], from, to);
        const fraction = out.trimEnd().split('\n').pop().trim().replace(/^\* /, '');
        const [, decimal] = / = (-?[\d.]+(?:e[+-]\d+)?) /.exec(linesOf(verbose(from, to))[0]) ?? [];
        const isShort = /^-?\d+\|\d+$/.test(fraction) && fraction.length <= LONGEST_FRACTION;
        if (status !== 0 || !isShort || !decimal || written.isWhole(decimal, fraction)) return;
        get('answer').append(line('fraction', 'as a fraction: ', isolated('', written.numberOf(fraction))));
    }

    function showPrinted(from, to) {
        const {status, out, err, trap} = convertWith(options.words(), from, to), isAnswered = status === 0;
        const others = ['historical.units', 'doubtful.units'].map(name => [`from ${name}`, files.originalOf(name)]);
        const command = terminal.lineFor(from, to, ownDefinitions('standard.units', others), isAnswered);
        get('reply').textContent = out + err + (trap ?? '');
        get('command').textContent = command ?? (isAnswered ? 'This answer needs your files: download them first.'
            : 'There is no line for a question that is refused.');
        get('copy-command').hidden = command === undefined;
    }

    function showDetails(from, to, isAnswered) {
        if (isAnswered) addFraction(from, to);
        describe('from', from, isAnswered);
        describe('to', to, isAnswered);
        if (get('printed').open && from.trim()) showPrinted(from, to);
        get('conforming-count').textContent = '';
        if (get('conforming').open && from.trim()) listConforming();
        document.title = from.trim() ? `${from.trim()}${to.trim() ? ` in ${to.trim()}` : ''} – units` : 'units';
        settled(false);
        document.documentElement.dataset.settled = `${from}\n${to}`;
    }

    // ---- Names ----

    const conformingUnits = () => get('from').value.trim()
        ? names.reportedNames(run([...options.definitionWords(), '--', get('from').value, '?']).out) : [];
    const search = word => word
        ? names.reportedNames(run(['-q', ...options.definitionWords()], [`search ${word}\n`]).out) : [];

    function quantityOf() {
        const [from] = sides();
        return from.trim() ? quantities.keyOf(from, convertWith(options.definitionWords(), from, '').out) : undefined;
    }

    function findForFrom(text, word) {
        const found = search(word).filter(({name}) => !name.startsWith('!unitlist '));
        return {preferred: word.length > 1 ? quantities.all : [], others: found};
    }

    // Units of the quantity: those that this person used last, those that people want, all others. Inside a longer
    // expression or a list, and for a function, any name.
    function findForTo(text, word) {
        if (text.trim() !== word) return {preferred: [], others: search(word)};
        const quantity = quantityOf(), listed = quantities.listOf(quantity);
        const used = asked.unitsOf(quantity).slice(0, 4).map(name => ({name, meaning: 'used before'}));
        const others = conformingUnits();
        const isFound = word === '' || [...used, ...listed, ...others].some(item => names.matches(item, word));
        return {preferred: [...used, ...listed], others: isFound ? others : search(word)};
    }

    function listConforming() {
        const sought = get('conforming-filter').value.trim().toLowerCase(), all = conformingUnits();
        const found = all.filter(({name}) => name.toLowerCase().includes(sought));
        const button = ({name, meaning}) => element('button', {
            type: 'button', onclick: () => { put(get('from').value, name); get('to').focus(); },
        }, isolated('name', name), element('span', {className: 'meaning'}, meaning));
        get('conforming-count').textContent = all.length;
        const items = found.slice(0, MOST_LISTED).map(unit => element('li', {}, button(unit)));
        get('conforming-list').replaceChildren(...items);
    }

    // ---- Controls ----

    function put(from, to) {
        get('from').value = from;
        get('to').value = to;
        show();
    }

    // Turns the answer round: its number and unit come first. If the reply has another form, only the texts change places.
    function swap() {
        const [from, to] = sides().map(text => text.trim());
        put(...(written.swapped(linesOf(verbose(from, to)), from, to) ?? [to, from]));
    }

    function listExamples() {
        get('examples').append(...EXAMPLES.map(([from, to]) => element('button',
            {type: 'button', onclick: () => put(from, to)}, to ? `${from} → ${to}` : from)));
    }

    // Enter moves between the two fields, as it does in a session.
    function moveOn(event) {
        if (event.key !== 'Enter' || event.defaultPrevented) return;
        event.preventDefault();
        const next = get(event.target === get('from') ? 'to' : 'from');
        next.focus();
        next.select();
    }

    function showAsPrinted() {
        isAsPrinted = !isAsPrinted;
        get('as-printed').setAttribute('aria-pressed', isAsPrinted);
        show();
    }

    function start(compiled, onSettled) {
        module = compiled;
        settled = onSettled;
        files.listen(() => {
            cache.clear();
            if (!get('convert').hidden) show();
        });
        names.attach('from', findForFrom, show);
        names.attach('to', findForTo, show, true);
        for (const id of ['from', 'to']) {
            get(id).addEventListener('input', show);
            get(id).addEventListener('keydown', moveOn);
        }
        get('query').addEventListener('submit', event => event.preventDefault());
        get('swap').addEventListener('click', swap);
        get('as-printed').addEventListener('click', showAsPrinted);
        get('printed').addEventListener('toggle', () => { if (get('printed').open) showPrinted(...sides()); });
        get('conforming').addEventListener('toggle', () => { if (get('conforming').open) listConforming(); });
        get('conforming-filter').addEventListener('input', listConforming);
        listExamples();
    }

    return {start, show, put, run, sides, reply, copied, ownDefinitions};
})();
