'use strict';
// The Session view. A session is its arguments, the changed files at its start, and its lines: the program's output is a
// function of these. If the browser can suspend a run, the run waits for each line. If not, the page runs all lines again
// after each new one. A read returns one line at a time, which shows which part of the output replies to which line.
const session = (() => {
    const KEY = 'units:session', PROMPT = /(?:You have|You want): $/, FIRST_PROMPT = 'You have: ', HELP = ['?', ':help'];
    let module = null, state = null, conversation = null, shownTurns = 0, prompt = '', recalled = null, draft = '';
    // The files as the session left them when the page last took those that it saved, as bytes.
    let taken = new Map();
    // Lines are answered one after the other.
    let last = Promise.resolve();

    const newState = () => ({words: options.words(), changes: options.changes(), lines: []});

    const span = (className, text) => element('span', {className}, text);
    const print = (...parts) => get('transcript').append(...parts);

    function showTurns(turns) {
        for (const {out, err} of turns) {
            const end = PROMPT.exec(out);
            if (shownTurns > 0) print(span('prompt', prompt), span('entered', `${state.lines[shownTurns - 1]}\n`));
            print(end ? out.slice(0, end.index) : out);
            if (err) print(span('fault', err));
            prompt = end ? end[0] : '';
            shownTurns++;
        }
    }

    function showPrompt(trap) {
        if (trap) print(span('fault', `${trap}\n`));
        const isOver = prompt === '' || trap !== null;
        get('prompt').textContent = isOver ? 'The session has ended.' : prompt.trim();
        get('line').disabled = isOver;
        get('remove-line').disabled = get('restart').disabled = state.lines.length === 0;
        get('transcript').scrollTop = get('transcript').scrollHeight;
    }

    const given = () => ({
        words: state.words, input: state.lines.map(line => `${line}\n`), files: files.contentsWith(state.changes),
    });

    // Runs all lines. What is shown already is the same again, and a screen reader has read it.
    function runAll() {
        const {turns, trap, files: after} = program.run(module, given());
        showTurns(turns.slice(shownTurns));
        showPrompt(trap);
        return after;
    }

    async function openConversation() {
        conversation = program.Conversation.isPossible ? new program.Conversation(module, given()) : null;
        const {turns, trap, files: after} = await conversation?.start() ?? {};
        // A suspended run may have a smaller stack.
        if (!conversation || trap) return closeConversation();
        showTurns(turns);
        showPrompt(null);
        return after;
    }

    function closeConversation() {
        conversation = null;
        return runAll();
    }

    async function continueWith(line) {
        if (!conversation) return runAll();
        const {turns, trap, files: after} = await conversation.enter(`${line}\n`);
        if (trap) return closeConversation();
        showTurns(turns);
        showPrompt(null);
        return after;
    }

    async function showAnew() {
        get('transcript').replaceChildren();
        shownTurns = 0;
        taken = await openConversation();
    }

    // Files that the last line saved become the user's own, with what was changed in them meanwhile.
    function takeSaved(after) {
        const decoder = new TextDecoder('utf-8', {ignoreBOM: true}), textOf = bytes => bytes ? decoder.decode(bytes) : null;
        const changes = [...after].filter(([name, bytes]) => taken.get(name) !== bytes)
            .map(([name, bytes]) => [name, textOf(taken.get(name)), textOf(bytes)])
            .filter(([, before, now]) => before !== now);
        if (changes.length > 0) files.change(changes);
        taken = after;
    }

    // The page itself answers what the program takes for a unit there.
    function help(line) {
        const rows = [...document.querySelectorAll('.commands div')]
            .map(row => `\t${row.querySelector('dt').textContent} ${row.querySelector('dd').textContent}\n`);
        print(span('prompt', prompt), span('entered', `${line}\n`), span('help-text', rows.join('')));
        get('transcript').scrollTop = get('transcript').scrollHeight;
    }

    async function answer(line) {
        if (get('line').disabled) return;
        recalled = null;
        if (prompt === FIRST_PROMPT && HELP.includes(line.trim())) return help(line);
        if (state.lines.length === 0) {
            state = newState();
            await showAnew();
        }
        state.lines.push(line);
        takeSaved(await continueWith(line));
        storage.writeOfTab(KEY, state);
    }

    function enter(event) {
        event.preventDefault();
        const line = get('line').value;
        get('line').value = '';
        last = last.then(() => answer(line));
    }

    function removeLines(count) {
        last = last.then(() => {
            state.lines.splice(state.lines.length - count, count);
            if (state.lines.length === 0) state = newState();
            storage.writeOfTab(KEY, state);
            get('line').disabled = false;
            get('line').focus();
            return showAnew();
        });
    }

    function recall(event) {
        const step = {ArrowUp: -1, ArrowDown: 1}[event.key];
        if (!step) return;
        event.preventDefault();
        recalled ??= state.lines.length;
        if (recalled === state.lines.length) draft = get('line').value;
        recalled = Math.max(0, Math.min(state.lines.length, recalled + step));
        get('line').value = state.lines[recalled] ?? draft;
    }

    // A session without lines follows the options and the files.
    function open() {
        last = last.then(async () => {
            const hasLines = state !== null && state.lines.length > 0;
            if (!hasLines) state = newState();
            if (!hasLines || shownTurns === 0) await showAnew();
            get('transcript').scrollTop = get('transcript').scrollHeight;
        });
    }

    function start(compiled) {
        module = compiled;
        const kept = storage.readOfTab(KEY, null);
        state = Array.isArray(kept?.lines) ? kept : null;
        get('entry').addEventListener('submit', enter);
        get('line').addEventListener('keydown', recall);
        get('remove-line').addEventListener('click', () => removeLines(1));
        get('restart').addEventListener('click', () => removeLines(state.lines.length));
    }

    return {start, open};
})();
